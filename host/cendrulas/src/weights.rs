//! The weights of restoring. They depend only on which servers answered, so they are asked once for all contents that the same servers gave.

use crate::abi;
use crate::{Answer, Refusal};

/// The t+1 servers that restoring uses, for every t.
pub const USED_ROOM: usize = 5;
/// Their weights, t+1 rows of t+1, for every t.
pub const ROWS_ROOM: usize = 25;

/// The servers used, to the front of `used`, and their rows of weights, one after the other, to the front of `rows`; the count is of servers.
pub fn weight_rows(t: usize, servers: &[usize], used: &mut [u8], rows: &mut [u8]) -> Answer {
    // SAFETY: pointers and lengths are those of live slices, and `used` and `rows` are each lent alone.
    Answer::unpack(unsafe {
        abi::cendrulas_weights(t, servers.as_ptr(), servers.len(), used.as_mut_ptr(), used.len(), rows.as_mut_ptr(), rows.len())
    })
}

/// A content of `length` bytes by rows of weights, from the fragments of the servers used, in their order, one fragment after the other.
pub fn restore_weighed(t: usize, length: usize, rows: &[u8], fragments: &[u8], out: &mut [u8]) -> Answer {
    // SAFETY: pointers and lengths are those of live slices, and `out` is lent alone.
    Answer::unpack(unsafe {
        abi::cendrulas_restore_weighed(
            t,
            length,
            rows.as_ptr(),
            rows.len(),
            fragments.as_ptr(),
            fragments.len(),
            out.as_mut_ptr(),
            out.len(),
        )
    })
}

/// Which servers restoring uses, and the weights of their fragments. It keeps its t, so that its rows are not taken for those of another.
#[derive(Clone, Copy, Debug, PartialEq, Eq)]
pub struct Weights {
    t: usize,
    used: [u8; USED_ROOM],
    rows: [u8; ROWS_ROOM],
}

/// The weights for a shelf of which up to `t` servers may lie (1 to 4), of the first t+1 different ones among the servers named.
/// examples/weights.rs restores two contents by them.
pub fn weights(t: usize, servers: &[usize]) -> Result<Weights, Refusal> {
    let mut weights = Weights { t, used: [0; USED_ROOM], rows: [0; ROWS_ROOM] };
    weight_rows(t, servers, &mut weights.used, &mut weights.rows).accepted().map(|_| weights)
}

impl Weights {
    /// The t+1 servers used: so their fragments stand at `restore`.
    pub fn used(&self) -> &[u8] {
        &self.used[..=self.t]
    }

    /// A row for each plain run of a content, which is what servers 1 to t+1 hold, with a weight for each server used.
    pub fn rows(&self) -> impl Iterator<Item = &[u8]> {
        self.rows.chunks_exact(self.t + 1).take(self.t + 1)
    }

    /// The content of `length` bytes from the fragments of the servers used, in their order, one after the other; its length.
    pub fn restore(&self, length: usize, fragments: &[u8], out: &mut [u8]) -> Result<usize, Refusal> {
        restore_weighed(self.t, length, &self.rows, fragments, out).accepted().map(|answer| answer.count)
    }
}
