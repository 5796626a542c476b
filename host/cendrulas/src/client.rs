//! The client over its lent state.

use crate::abi;
use crate::Answer;

/// Bytes of a client's state; all 00h is a new client.
pub const CLIENT_STATE: usize = 24_640;
/// Bytes of the keys of servers 1 to 13.
pub const SERVER_KEYS: usize = 13 * 32;

/// The round in hand as result, with bit i-1 of the number where server i has replied in it, and their count.
pub fn client_round(state: &[u8]) -> Answer {
    // SAFETY: pointer and length are those of a live slice.
    Answer::unpack(unsafe { abi::cendrulas_client_round(state.as_ptr(), state.len()) })
}

pub fn client_begin_write(state: &mut [u8], t: usize, client: usize, content: &[u8], nonce: &[u8]) -> Answer {
    // SAFETY: pointers and lengths are those of live slices, and the state is lent alone.
    Answer::unpack(unsafe {
        abi::cendrulas_client_begin_write(
            state.as_mut_ptr(),
            state.len(),
            t,
            client,
            content.as_ptr(),
            content.len(),
            nonce.as_ptr(),
            nonce.len(),
        )
    })
}

pub fn client_begin_read(state: &mut [u8], t: usize, client: usize) -> Answer {
    // SAFETY: as in `client_begin_write`.
    Answer::unpack(unsafe { abi::cendrulas_client_begin_read(state.as_mut_ptr(), state.len(), t, client) })
}

/// The current round's packet for a server, to the front of `out`.
pub fn client_make(state: &[u8], t: usize, client: usize, server: usize, out: &mut [u8]) -> Answer {
    // SAFETY: as in `client_begin_write`; `out` is lent alone.
    Answer::unpack(unsafe {
        abi::cendrulas_client_make(state.as_ptr(), state.len(), t, client, server, out.as_mut_ptr(), out.len())
    })
}

/// Takes a packet; a content that was read stands at the front of `out`.
pub fn client_take(
    state: &mut [u8],
    t: usize,
    client: usize,
    writers: &[u8],
    keys: &[u8],
    packet: &[u8],
    out: &mut [u8],
) -> Answer {
    // SAFETY: as in `client_make`.
    Answer::unpack(unsafe {
        abi::cendrulas_client_take(
            state.as_mut_ptr(),
            state.len(),
            t,
            client,
            writers.as_ptr(),
            writers.len(),
            keys.as_ptr(),
            keys.len(),
            packet.as_ptr(),
            packet.len(),
            out.as_mut_ptr(),
            out.len(),
        )
    })
}

pub fn client_give_up(state: &mut [u8], t: usize, client: usize) -> Answer {
    // SAFETY: as in `client_begin_write`.
    Answer::unpack(unsafe { abi::cendrulas_client_give_up(state.as_mut_ptr(), state.len(), t, client) })
}
