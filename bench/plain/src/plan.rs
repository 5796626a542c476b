//! What the packets and box memories of a shelf take (document 02, W-201).

use crate::fragments::fragment_length;
use crate::packet::{after_fragment_length, HEAD};
use crate::stamp::{candidate_length, STAMP};
use crate::{boxes_of, Refusal, HISTORY_PLACES, MAX_BOXES, RECORD_MAX};

/// How many numbers a plan has: 13 kinds with 0, which is none; filters of 0 to 13 candidates; two forms of a filter's reply; requests and
/// replies of a write, of reads and of repaired reads; a memory.
pub const PLAN: usize = 13 + (MAX_BOXES + 1) + 2 + 6 + 1;

/// Writes the numbers, or is refused and writes nothing.
pub fn plan(t: usize, length: usize, readers: usize, stores: usize, numbers: &mut [usize; PLAN]) -> Result<(), Refusal> {
    let Some(t) = u8::try_from(t).ok().filter(|t| (1..=4).contains(t)) else {
        return Err(Refusal::BadT);
    };
    if !(1..=16).contains(&readers) {
        return Err(Refusal::BadClient);
    }
    if length > RECORD_MAX {
        return Err(Refusal::BadLength);
    }
    if stores > HISTORY_PLACES {
        return Err(Refusal::TooManyStores);
    }
    let boxes = boxes_of(t);
    let candidate = candidate_length(t);
    // record length, fragment and what follows it
    let held = 2 + fragment_length(t, length) + after_fragment_length(t);
    let bodies = [0, STAMP, STAMP + held, 1, candidate, 0, 0, candidate, 0, 0, candidate, 0];

    numbers.fill(0);
    let (kinds, rest) = numbers.split_at_mut(13);
    let (filters, rest) = rest.split_at_mut(MAX_BOXES + 1);
    for (kind, body) in kinds[1..].iter_mut().zip(bodies) {
        *kind = HEAD + body;
    }
    kinds[9..11].fill(0);
    for (count, filter) in filters[..=boxes].iter_mut().enumerate() {
        *filter = HEAD + 1 + count * candidate;
    }
    rest[..2].copy_from_slice(&[HEAD + STAMP + 1, HEAD + STAMP + 1 + held]);
    let rounds = [3, 3, 2 * readers, 2 * readers, 3 * readers, 3 * readers];
    for (packets, rounds) in rest[2..8].iter_mut().zip(rounds) {
        *packets = rounds * boxes;
    }
    // t, box and count, the latest candidate, the stored writes
    rest[8] = 3 + candidate + stores * (STAMP + held);
    Ok(())
}

#[cfg(test)]
mod tests {
    use super::*;
    use crate::hmac::TAG;

    /// Each length by the tags in it and its other bytes; those of a candidate are number, writer and nonce.
    #[test]
    fn a_plan() {
        let with = |tags: usize, others: usize| tags * TAG + others;
        let candidate = with(5, 8 + 5 + 32);
        let mut numbers = [7; PLAN];
        assert_eq!(plan(1, 3, 3, 1, &mut numbers), Ok(()));
        assert_eq!(numbers[..13], [0, 8, with(1, 13), with(5, 177), 9, candidate, 8, 8, candidate, 0, 0, candidate, 8]);
        assert_eq!(numbers[13..18], [9, with(5, 46), with(10, 83), with(15, 120), with(20, 157)]);
        assert_eq!(numbers[18..27], [0; 9]);
        assert_eq!(numbers[27..], [with(1, 14), with(5, 178), 12, 12, 24, 24, 36, 36, with(10, 209)]);
        assert_eq!(plan(1, 3, 3, 33, &mut numbers), Err(Refusal::TooManyStores));
    }
}
