//! The trace shelf of documents 01 and 02 in plain Rust, without proofs: the opponent of every ratio
//! and an independent second implementation. Its words are document 01's (box for server).
#![forbid(unsafe_code)]

pub mod boxes;
pub mod client;
pub mod drill;
pub mod fragments;
pub mod gf256;
pub mod hmac;
pub mod packet;
pub mod plan;
pub mod sha256;
pub mod stamp;

/// Top of call numbers, stamp numbers and drill line numbers.
pub const TOP_NUMBER: u32 = 99_999_999;
pub const BOX_MEMORY: usize = 40_960;
pub const WORK_AREA: usize = 2_097_152;
pub const PACKET_OUTPUT: usize = 6_400;
pub const RECORD_OUTPUT: usize = 1_024;
pub const RECORD_MAX: usize = 1_024;
pub const HISTORY_PLACES: usize = 32;
/// Boxes at t = 4.
pub const MAX_BOXES: usize = 13;

/// S = 3t+1.
#[inline]
pub const fn boxes_of(t: u8) -> usize {
    3 * t as usize + 1
}

/// 2t+1.
#[inline]
pub const fn quorum_of(t: u8) -> u32 {
    2 * t as u32 + 1
}

/// Why a call was turned down; the numbers are document 01's table and document 02's.
#[derive(Clone, Copy, Debug, PartialEq, Eq)]
#[repr(u8)]
pub enum Refusal {
    MemorySize = 1,
    NoBoxRecord = 2,
    BadT = 3,
    BadBox = 4,
    BadClient = 5,
    BadLength = 6,
    BadPacket = 7,
    NotMine = 8,
    NotAllowed = 9,
    WrongReply = 12,
    WrongMoment = 13,
    NumbersUsedUp = 14,
    OutputTooSmall = 15,
    CannotRestore = 16,
    TooManyStores = 18,
}
