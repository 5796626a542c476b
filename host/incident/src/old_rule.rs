//! The old client's rule, as we read the user's words: "Our client believed three matching replies."
//!
//! A load asks all four boxes for their latest record. When too few replies have come in after a while it asks all four once more, and goes on
//! counting. The record that is the first to be named by three replies is shown, with "Saved on the shelf" lit. **Replies are counted, not boxes**:
//! a box that was asked twice counts twice. A save is done when three boxes have acknowledged it.
//!
//! Under this reading the teacher's case takes all that she and the user name, and no more: a box that goes back, a save that reached only part
//! of the others, and an order of packets. The save reached boxes 1, 2 and 4; box 4 goes back. Then boxes 1 and 2 name the new record, boxes 3 and 4
//! the old one. At table four the second reply of box 1 is the third for the new record, at table six that of box 4 the third for the old one.
//! Had each box counted once, two would have been the most for the old record, and the load would have waited for ever.

use crate::packet;

/// So many matching replies are believed.
pub const MATCHING: u8 = 3;
/// So often a load asks each box.
pub const ASKS: usize = 2;
/// The stories have records of numbers 1 and 2.
const NUMBERS: usize = 3;

/// A load by the old rule: how many replies named each record.
#[derive(Clone, Copy, Debug, Default, PartialEq, Eq, Hash)]
pub struct OldLoad {
    votes: [u8; NUMBERS],
}

/// The number of the record that a box names as its latest, if this is a reply to collect.
pub fn named(reply: &[u8]) -> Option<u32> {
    packet::stamp_number(reply).filter(|_| reply[0] == packet::reply(packet::COLLECT))
}

impl OldLoad {
    /// Counts a reply. The number of the record that is shown with it, if any.
    pub fn take(&mut self, reply: &[u8]) -> Option<u32> {
        let number = named(reply)?;
        let votes = self.votes.get_mut(number as usize)?;
        *votes += 1;
        (*votes == MATCHING).then_some(number)
    }
}
