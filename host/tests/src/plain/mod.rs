//! The plain shelf behind the library's own interface, so that one call can be made on both.

mod digest;
pub use digest::{digest, hmac, tag};

mod coding;
pub use coding::{fragment, restore, restore_weighed, weight_rows};

mod server;
pub use server::{server_blank, server_take};

mod client;
pub use client::Client;

mod drill;
pub use drill::drill;

mod plan;
pub use plan::plan_numbers;

use cendrulas::Answer;
use shelf::Refusal;

/// The number that the library has for a lent buffer of a wrong size, where document 01's table has none; see crates/cluster/specs/Refusals.antt.
const WRONG_SIZE: u8 = 255;

/// The answer of an operation that writes bytes or is refused.
fn answer(outcome: Result<usize, Refusal>) -> Answer {
    match outcome {
        Ok(count) => Answer::wrote(count),
        Err(refusal) => Answer::refused(refusal as u8),
    }
}

/// A number that fits no byte is as little in range as 0.
fn narrow(number: usize) -> u8 {
    u8::try_from(number).unwrap_or(0)
}
