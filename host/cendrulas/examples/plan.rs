//! What a lab with t = 1 takes, whose 16 scopes load records of 1,024 bytes and whose boxes have kept 20 of them. host/test runs it and holds it to
//! host/c/plan.c.

use cendrulas::{plan, Refusal, Traffic, SERVER_MEMORY};

fn main() -> Result<(), Refusal> {
    let (t, length, readers, stores) = (1, 1_024, 16, 20);
    let lab = plan(t, length, readers, stores)?;
    let bytes = |kind| lab.kind(kind).expect("a kind with one length");
    println!("a store has {} bytes, its reply {}", bytes(3), bytes(4));
    println!("a filter with one candidate has {}", lab.filter(1).expect("at most S"));
    println!("its reply has {} with a fragment, {} without", lab.held(true), lab.held(false));
    let Traffic { requests, replies } = lab.reads();
    println!("{readers} loads are {requests} packets to the boxes and {replies} back");
    println!("{stores} records take {} of {SERVER_MEMORY} bytes in each box", lab.memory());
    let refused = plan(t, length, readers, 33).expect_err("too many");
    println!("33 records are refused: {}", refused.name());
    Ok(())
}
