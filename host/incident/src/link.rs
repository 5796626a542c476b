//! Links: what makes sure that no packet bears a right party's number falsely.
//!
//! A datagram is a packet and its tag under the link key of the pair of box and scope that the packet names. There is one key for each pair,
//! and only these two hold it. So a lying box cannot speak as another box, and a wild scope not as another scope: neither holds the key. A packet
//! names its scope, its box and its direction (the kind: odd from the scope, even from the box), and all three are under the tag.
//! A datagram that is sent back where it came from names the wrong direction, which the library refuses (9 at a box, 12 at a scope).
//! Copies and delays pass: the protocol bears them, so a link needs no counter and remembers nothing.
//!
//! The tag is as long as the shelf's own. A box takes a complete, and a scope takes a reply, on the sender's word, so there the link's tag is the only
//! seal: docs/PAGE-41.md says what guessing it would take.

use crate::packet::parties;
use cendrulas::{PACKET_ROOM, TAG};

pub const KEY: usize = 32;
/// The longest datagram; a longer one is cut when it is received, and its tag is wrong then.
pub const DATAGRAM: usize = PACKET_ROOM + TAG;

pub type Key = [u8; KEY];

fn tag(key: &Key, packet: &[u8]) -> [u8; TAG] {
    let mut tag = [0; TAG];
    let answer = cendrulas::tag(key, packet, &mut tag);
    assert_eq!(answer.refusal, 0, "key and output have their lengths");
    tag
}

/// The datagram of a packet.
pub fn seal(key: &Key, packet: &[u8]) -> Vec<u8> {
    [packet, &tag(key, packet)].concat()
}

/// The packet in a datagram, whoever sent it.
pub fn packet(datagram: &[u8]) -> Option<&[u8]> {
    Some(datagram.split_last_chunk::<TAG>()?.0)
}

/// The packet in a datagram, if the pair's own key sealed it. `key_of` gives the key of the link with a scope and a box, where there is one.
pub fn open(datagram: &[u8], key_of: impl FnOnce(usize, usize) -> Option<Key>) -> Option<&[u8]> {
    let (packet, sealed) = datagram.split_last_chunk::<TAG>()?;
    let (scope, server) = parties(packet)?;
    same(&tag(&key_of(scope, server)?, packet), sealed).then_some(packet)
}

/// Compared in a time that does not depend on where they differ.
fn same(a: &[u8; TAG], b: &[u8; TAG]) -> bool {
    a.iter().zip(b).fold(0, |differs, (x, y)| differs | (x ^ y)) == 0
}
