//! The shelf on real processes. `box` and `scope` are the way to embed the library (docs/EMBEDDING.md), `keys` makes their key files, and
//! `incident` plays the teacher's case with them and puts them to tests. What they share stands here, one theme to a module.

pub mod call;
pub mod card;
pub mod cuts;
pub mod forged;
pub mod keys;
pub mod kills;
pub mod link;
pub mod load;
pub mod old_rule;
pub mod packet;
pub mod random;
pub mod search;
pub mod serve;
pub mod story;
pub mod words;

pub const CLIENTS: usize = 16;
/// Scopes up to this number hold the writers' keys.
pub const WRITERS: usize = 8;

pub fn servers(t: usize) -> usize {
    3 * t + 1
}

/// How many boxes' replies end a round.
pub fn quorum(t: usize) -> usize {
    2 * t + 1
}
