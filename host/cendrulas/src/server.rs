//! The server over its lent memory.

use crate::abi;
use crate::Answer;

/// Makes a blank server of any memory of the right size.
pub fn server_blank(memory: &mut [u8], t: usize, server: usize) -> Answer {
    // SAFETY: pointer and length are those of a live slice, lent alone.
    Answer::unpack(unsafe { abi::cendrulas_server_blank(memory.as_mut_ptr(), memory.len(), t, server) })
}

/// The server takes a packet; its reply stands at the front of `out`. Result 1 where the memory changed.
pub fn server_take(memory: &mut [u8], key: &[u8], packet: &[u8], out: &mut [u8]) -> Answer {
    // SAFETY: pointers and lengths are those of live slices; `memory` and `out` are lent alone.
    Answer::unpack(unsafe {
        abi::cendrulas_server_take(
            memory.as_mut_ptr(),
            memory.len(),
            key.as_ptr(),
            key.len(),
            packet.as_ptr(),
            packet.len(),
            out.as_mut_ptr(),
            out.len(),
        )
    })
}
