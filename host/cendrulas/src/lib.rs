//! The proved library for Rust. `Client` and `Server` keep what belongs together and name their results; below them stand the functions
//! of include/cendrulas.h on slices, each with its answer unpacked. Every one of them is total, so the wrappers test nothing.

mod abi;
mod answer;
mod client;
mod coding;
mod digest;
mod drill;
mod packets;
mod parties;
mod plan;
mod refusal;
mod server;
mod weights;

/// Bytes of a server's memory.
pub const SERVER_MEMORY: usize = 40_960;
/// Bytes of output that a packet and a content ask for, however short they are.
pub const PACKET_ROOM: usize = 6_400;
pub const CONTENT_ROOM: usize = 1_024;

pub use answer::Answer;
pub use client::{
    client_begin_read, client_begin_write, client_give_up, client_make, client_round, client_take, CLIENT_STATE, SERVER_KEYS,
};
pub use coding::{fragment, restore};
pub use digest::{digest, hmac, tag, DIGEST, TAG};
pub use drill::{drill, listing_room, Listing, WORK_AREA};
pub use packets::{packet_check, store_code};
pub use parties::{stored, Client, GivenUp, Keys, Label, Round, Served, Server, Stored, Taken};
pub use plan::{plan, plan_numbers, Plan, Traffic, PLAN};
pub use refusal::Refusal;
pub use server::{server_blank, server_take};
pub use weights::{restore_weighed, weight_rows, weights, Weights, ROWS_ROOM, USED_ROOM};

/// The version of the archive that is linked, as major * 65536 + minor * 256 + patch.
pub fn version() -> u32 {
    // SAFETY: it takes nothing and keeps nothing.
    unsafe { abi::cendrulas_version() }
}
