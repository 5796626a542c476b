//! Two records from the same boxes of a shelf with t = 1. The weights of these boxes are asked once, and both records are restored with them.
//! host/test runs it and holds it to host/c/weights.c.

use cendrulas::{fragment, weights, Refusal, Weights, CONTENT_ROOM};

const T: usize = 1;

/// What the boxes used hold of a record, in their order. On a shelf it comes in their replies, and each fragment is held to its digest first.
fn gather(record: &str, weights: &Weights) -> Result<Vec<u8>, Refusal> {
    let (mut one, mut fragments) = ([0; 512], Vec::new());
    for &server in weights.used() {
        let held = fragment(T, server.into(), record.as_bytes(), &mut one).accepted()?;
        fragments.extend(&one[..held.count]);
    }
    Ok(fragments)
}

fn main() -> Result<(), Refusal> {
    let records = ["CH1 500 mV/div 20 us/div", "CH2 2 V/div 1 ms/div"];
    let answered = [4, 4, 3, 1]; // in this order; box 4 was asked again
    let asked = weights(T, &answered)?;
    let (used, rows) = (asked.used(), asked.rows().collect::<Vec<_>>());
    println!("boxes used: {} {}", used[0], used[1]);
    println!("weights: {:02x} {:02x} in run 1, {:02x} {:02x} in run 2", rows[0][0], rows[0][1], rows[1][0], rows[1][1]);
    for record in records {
        let mut content = [0; CONTENT_ROOM];
        let length = asked.restore(record.len(), &gather(record, &asked)?, &mut content)?;
        println!("restored: {}", String::from_utf8_lossy(&content[..length]));
    }
    let refused = weights(T, &answered[..2]).expect_err("too few");
    println!("box 4 alone is refused: {}", refused.name());
    Ok(())
}
