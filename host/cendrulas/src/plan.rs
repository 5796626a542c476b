//! A plan of a lab: what the packets and memories of a shelf take, told before there is one. Document 01 says box for server and record for content.

use crate::abi;
use crate::{Answer, Refusal};

/// How many numbers a plan has.
pub const PLAN: usize = 36;

/// Where they stand; include/cendrulas.h names the same places.
const KIND: usize = 0;
const FILTER: usize = 13;
const HELD: usize = 27;
const WRITE: usize = 29;
const READ: usize = 31;
const REPAIRED: usize = 33;
const MEMORY: usize = 35;

/// The numbers of a plan, to the front of `numbers`; the count is of numbers.
pub fn plan_numbers(t: usize, length: usize, readers: usize, stores: usize, numbers: &mut [usize]) -> Answer {
    // SAFETY: pointer and length are those of a live slice, lent alone.
    Answer::unpack(unsafe { abi::cendrulas_plan(t, length, readers, stores, numbers.as_mut_ptr(), numbers.len()) })
}

/// How many packets go to the servers, and how many come back.
#[derive(Clone, Copy, Debug, PartialEq, Eq)]
pub struct Traffic {
    pub requests: usize,
    pub replies: usize,
}

/// What a shelf takes, for contents of one length. Lengths are of whole packets, in bytes.
#[derive(Clone, Copy, Debug, PartialEq, Eq)]
pub struct Plan {
    numbers: [usize; PLAN],
}

/// The plan of a shelf of which up to `t` servers may lie (1 to 4), for contents of `length` bytes (0 to 1,024), so many clients that read together
/// (1 to 16), and so many stores that a server keeps (0 to 32). examples/plan.rs has one.
pub fn plan(t: usize, length: usize, readers: usize, stores: usize) -> Result<Plan, Refusal> {
    let mut numbers = [0; PLAN];
    plan_numbers(t, length, readers, stores, &mut numbers).accepted().map(|_| Plan { numbers })
}

impl Plan {
    /// A packet's length by its kind, 1 to 12. None for 9 and 10, which have no one length (`filter`, `held`), and where there is no such kind.
    pub fn kind(&self, kind: usize) -> Option<usize> {
        self.length(KIND..FILTER, kind)
    }

    /// The length of a filter (kind 9) with so many candidates, 0 to S; None above S.
    pub fn filter(&self, candidates: usize) -> Option<usize> {
        self.length(FILTER..HELD, candidates)
    }

    /// The length of a filter's reply (kind 10): with a share, which has the server's fragment, or without.
    pub fn held(&self, share: bool) -> usize {
        self.numbers[HELD + usize::from(share)]
    }

    /// A write, when each round goes to all S servers and all of them reply.
    pub fn write(&self) -> Traffic {
        self.traffic(WRITE)
    }

    /// A read by each of the clients, together, none of them repaired.
    pub fn reads(&self) -> Traffic {
        self.traffic(READ)
    }

    /// A read by each of the clients, together, each of them repaired.
    pub fn repaired(&self) -> Traffic {
        self.traffic(REPAIRED)
    }

    /// Bytes of a server's memory that its fields take after the stores; the others of `SERVER_MEMORY` are 00h.
    pub fn memory(&self) -> usize {
        self.numbers[MEMORY]
    }

    /// A length among those of a part; 0 stands where there is none.
    fn length(&self, part: std::ops::Range<usize>, at: usize) -> Option<usize> {
        self.numbers[part].get(at).copied().filter(|&length| length != 0)
    }

    fn traffic(&self, at: usize) -> Traffic {
        Traffic { requests: self.numbers[at], replies: self.numbers[at + 1] }
    }
}
