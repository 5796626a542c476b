//! Digest, HMAC and tag.

use crate::abi;
use crate::Answer;

/// Bytes of a digest, and of a whole HMAC.
pub const DIGEST: usize = 32;
/// Bytes of a tag, the first ones of an HMAC.
pub const TAG: usize = 16;

/// SHA-256 of the message, to the front of `out`.
pub fn digest(message: &[u8], out: &mut [u8]) -> Answer {
    // SAFETY: pointers and lengths are those of live slices, and `out` is lent alone.
    Answer::unpack(unsafe { abi::cendrulas_digest(message.as_ptr(), message.len(), out.as_mut_ptr(), out.len()) })
}

/// HMAC-SHA-256 of the message under a key of 32 bytes, whole, to the front of `out`.
pub fn hmac(key: &[u8], message: &[u8], out: &mut [u8]) -> Answer {
    // SAFETY: as in `digest`.
    Answer::unpack(unsafe {
        abi::cendrulas_hmac(key.as_ptr(), key.len(), message.as_ptr(), message.len(), out.as_mut_ptr(), out.len())
    })
}

/// The tag of the message under a key of 32 bytes, to the front of `out`.
pub fn tag(key: &[u8], message: &[u8], out: &mut [u8]) -> Answer {
    // SAFETY: as in `digest`.
    Answer::unpack(unsafe {
        abi::cendrulas_tag(key.as_ptr(), key.len(), message.as_ptr(), message.len(), out.as_mut_ptr(), out.len())
    })
}
