//! What the host reads of packets (document 01, "Packets"): their head, which is kind, client, box and t, a byte each, and the call; and what stands
//! first in some replies. The library reads the rest.

use cendrulas::TAG;

pub const CLOCK: u8 = 1;
pub const STORE: u8 = 3;
pub const COMPLETE: u8 = 5;
pub const COLLECT: u8 = 7;
pub const FILTER: u8 = 9;

const CALL: usize = 4;
const HEAD: usize = 8;
/// Number, writer and tag.
const STAMP: usize = 4 + 1 + TAG;

/// The kind of the reply to a question.
pub const fn reply(kind: u8) -> u8 {
    kind + 1
}

pub fn is_reply(packet: &[u8]) -> bool {
    packet[0] % 2 == 0
}

/// The scope and the box that a packet names.
pub fn parties(packet: &[u8]) -> Option<(usize, usize)> {
    let [_, scope, server, ..] = packet else { return None };
    Some((usize::from(*scope), usize::from(*server)))
}

fn four_bytes(packet: &[u8], at: usize) -> Option<u32> {
    packet.get(at..)?.first_chunk().map(|bytes| u32::from_be_bytes(*bytes))
}

/// The number of a packet's call.
pub fn call(packet: &[u8]) -> Option<u32> {
    four_bytes(packet, CALL)
}

/// The number of the stamp in a reply to clock, collect or filter.
pub fn stamp_number(reply: &[u8]) -> Option<u32> {
    four_bytes(reply, HEAD)
}

/// Whether a reply to filter brings along what the box holds.
pub fn has_fragment(reply: &[u8]) -> bool {
    reply.get(HEAD + STAMP) == Some(&1)
}
