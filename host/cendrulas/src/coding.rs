//! Fragments and restoring.

use crate::abi;
use crate::Answer;

/// A server's fragment of the content, to the front of `out`.
pub fn fragment(t: usize, server: usize, content: &[u8], out: &mut [u8]) -> Answer {
    // SAFETY: pointers and lengths are those of live slices, and `out` is lent alone.
    Answer::unpack(unsafe {
        abi::cendrulas_fragment(t, server, content.as_ptr(), content.len(), out.as_mut_ptr(), out.len())
    })
}

/// A content of `length` bytes from the fragments of the servers named, one fragment after the other.
pub fn restore(t: usize, length: usize, servers: &[usize], fragments: &[u8], out: &mut [u8]) -> Answer {
    // SAFETY: pointers and lengths are those of live slices, and `out` is lent alone.
    Answer::unpack(unsafe {
        abi::cendrulas_restore(
            t,
            length,
            servers.as_ptr(),
            servers.len(),
            fragments.as_ptr(),
            fragments.len(),
            out.as_mut_ptr(),
            out.len(),
        )
    })
}
