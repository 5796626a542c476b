//! The order of a plan's refusals: for each set of faults the first is told, and nothing is written.

use super::UNWRITTEN;
use crate::check::{Run, Seen};
use cendrulas::{plan_numbers, Answer, PLAN};

/// The refusals in their order: an output one number short, t, readers, length, stores.
const ORDER: [u8; 5] = [255, 3, 5, 6, 18];

/// Values outside the ranges of t, readers, length and stores.
const OUTSIDE: [[usize; 4]; 4] = [
    [0, 5, 257, usize::MAX],
    [0, 17, 257, usize::MAX],
    [1_025, 1 << 16, 1 << 32 | 1, usize::MAX],
    [33, 256, 1 << 32, usize::MAX],
];

pub fn all(run: &mut Run) {
    for faults in 1..1 << ORDER.len() {
        let first = (0..ORDER.len()).find(|i| faults >> i & 1 == 1).expect("a fault");
        for pick in 0..4 {
            let word = |i: usize, legal: usize| if faults >> (i + 1) & 1 == 1 { OUTSIDE[i][pick] } else { legal };
            let (t, readers, length, stores) = (word(0, 4), word(1, 16), word(2, 1_024), word(3, 32));
            let room = PLAN - (faults & 1);
            let mut numbers = [UNWRITTEN; PLAN];
            let answer = plan_numbers(t, length, readers, stores, &mut numbers[..room]);
            let want = (Answer::refused(ORDER[first]), [UNWRITTEN; PLAN]);
            run.same(
                || format!("plan t {t} length {length} readers {readers} stores {stores}, room {room}"),
                Seen { answer: (answer, numbers), buffers: &[] },
                Seen { answer: want, buffers: &[] },
            );
        }
    }
}
