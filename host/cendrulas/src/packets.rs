//! The layout of packets.

use crate::abi;
use crate::Answer;

/// Whether bytes are a packet: refusal 7 where they break the layout.
pub fn packet_check(packet: &[u8]) -> Answer {
    // SAFETY: pointer and length are those of a live slice.
    Answer::unpack(unsafe { abi::cendrulas_packet_check(packet.as_ptr(), packet.len()) })
}

/// The code of a server's reply to a store: result 1 with the code as count (0 kept, 10 held already, 11 full); result 0 for other packets.
pub fn store_code(packet: &[u8]) -> Answer {
    // SAFETY: as in `packet_check`.
    Answer::unpack(unsafe { abi::cendrulas_store_code(packet.as_ptr(), packet.len()) })
}
