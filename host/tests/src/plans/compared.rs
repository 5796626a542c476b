//! Plans on the library and on the plain shelf: every t and length with the bounds of the others, every number of readers and stores with some
//! lengths, arguments far out of range, and outputs of any length.

use super::UNWRITTEN;
use crate::check::{Run, Seen};
use crate::kinds::{emptied, kind};
use crate::plain;
use cendrulas::{plan_numbers, PLAN};

/// Numbers that only look legal in their low bytes.
const FAR: [usize; 4] = [257, 1 << 16 | 1, 1 << 32 | 1, usize::MAX];

pub fn all(run: &mut Run) {
    for t in 0..=5 {
        for length in 0..=1_026 {
            for readers in [0, 1, 16, 17] {
                [0, 1, 32, 33].into_iter().for_each(|stores| compare(run, [t, length, readers, stores], PLAN));
            }
        }
        for length in [0, 1, 2, 3, 4, 5, 6, 1_023, 1_024, 1_025] {
            for readers in 0..=17 {
                (0..=33).for_each(|stores| compare(run, [t, length, readers, stores], PLAN));
            }
        }
    }
    for at in 0..4 {
        for number in FAR {
            let mut words = [1, 1, 1, 1];
            words[at] = number;
            compare(run, words, PLAN);
        }
    }
    for room in 0..2 * PLAN {
        compare(run, [4, 1_024, 16, 32], room);
        compare(run, [5, 1_025, 17, 33], room);
    }
}

/// A plan into an output of a length.
fn compare(run: &mut Run, words: [usize; 4], room: usize) {
    let [t, length, readers, stores] = words;
    let (mut got, mut want) = ([UNWRITTEN; 2 * PLAN], [UNWRITTEN; 2 * PLAN]);
    let answer = plan_numbers(t, length, readers, stores, &mut got[..room]);
    let plain = plain::plan_numbers(t, length, readers, stores, &mut want[..room]);
    run.same(
        || format!("plan t {t} length {length} readers {readers} stores {stores}, room {room}"),
        Seen { answer: (answer, got), buffers: &[] },
        Seen { answer: (plain, want), buffers: &[] },
    );
    run.kinds.saw("plan", kind(&answer, || emptied("accepted".into(), length == 0)));
}
