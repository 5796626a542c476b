//! A server's memory after each of 32 real stores: the body of the store packet stands where the plan of the stores before it ends, and what
//! follows it is 00h.

use super::shelf::Shelf;
use super::shelves;
use crate::check::{Run, Seen};
use cendrulas::{plan, stored, Stored, SERVER_MEMORY};
use shelf::packet::HEAD;

const WRITES: usize = 32;

pub fn all(run: &mut Run) {
    for (t, length) in shelves() {
        stores(run, t, length);
    }
    fits(run);
}

fn stores(run: &mut Run, t: usize, length: usize) {
    let everywhere: Vec<usize> = (1..=3 * t + 1).collect();
    let mut shelf = Shelf::new(t);
    for stores in 1..=WRITES {
        let content = vec![stores as u8; length];
        let write = shelf.write(stores % 8 + 1, &content, &everywhere, false);
        let kept = write.replies.iter().filter(|reply| stored(reply) == Some(Stored::Kept)).count();
        for packet in write.requests.iter().filter(|packet| packet[0] == 3) {
            let memory = shelf.servers[usize::from(packet[2]) - 1].memory();
            let got = (place(memory, &packet[HEAD..]), kept);
            let planned = |stores| plan(t, length, 1, stores).expect("a legal plan").memory();
            run.same(
                || format!("memory of t {t} after {stores} stores of {length} bytes, server {}", packet[2]),
                Seen { answer: got, buffers: &[] },
                Seen { answer: (Some((planned(stores - 1), planned(stores))), 3 * t + 1), buffers: &[] },
            );
        }
    }
}

/// Where a stored write begins and ends, if nothing but 00h follows it.
fn place(memory: &[u8], body: &[u8]) -> Option<(usize, usize)> {
    let begin = memory.windows(body.len()).position(|part| part == body)?;
    let end = begin + body.len();
    memory[end..].iter().all(|&byte| byte == 0).then_some((begin, end))
}

/// As many stores as are planned fit every memory, whatever their length; one more is refused.
fn fits(run: &mut Run) {
    for t in 1..=4 {
        for length in 0..=1_024 {
            let fits = plan(t, length, 1, WRITES).is_ok_and(|plan| plan.memory() <= SERVER_MEMORY);
            let more = plan(t, length, 1, WRITES + 1).is_ok();
            run.same(
                || format!("{WRITES} stores of {length} bytes at t {t}"),
                Seen { answer: (fits, more), buffers: &[] },
                Seen { answer: (true, false), buffers: &[] },
            );
        }
    }
}
