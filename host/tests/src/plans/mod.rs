//! Plans: against the plain shelf, in the order of their refusals, and against the packets and memories that the library really makes.

use crate::check::Run;

mod compared;
mod memories;
mod packets;
mod refused;
mod shelf;

/// What stands in a number that no plan has written: no length, count or sum is as large.
pub const UNWRITTEN: usize = 0xA5A5_A5A5_A5A5;

pub fn all(run: &mut Run) {
    run.group("plans", compared::all);
    run.group("refused plans", refused::all);
    run.group("packets as planned", packets::all);
    run.group("memories as planned", memories::all);
}

/// The shelves and lengths whose packets and memories are made: all t, no bytes, and lengths at and beside each bound of a fragment's length.
fn shelves() -> impl Iterator<Item = (usize, usize)> {
    (1..=4).flat_map(|t| [0, 1, t, t + 1, t + 2, 100, 511, 1_023, 1_024].map(|length| (t, length)))
}
