//! Random bytes from the system, and a small generator with a fixed seed for tests.

use std::fs::File;
use std::io::Read;

/// Bytes that nobody can guess, for keys and nonces.
pub fn unguessable() -> Result<[u8; 32], String> {
    let mut bytes = [0; 32];
    let read = File::open("/dev/urandom").and_then(|mut source| source.read_exact(&mut bytes));
    read.map_err(|e| format!("the system's random numbers (/dev/urandom) can't be read: {e}"))?;
    Ok(bytes)
}

/// Numbers from a seed (xorshift with a multiplication at the end): moments and records of tests, never keys or nonces.
pub struct Seeded(u64);

impl Seeded {
    pub fn new(seed: u64) -> Self {
        Seeded(seed.wrapping_mul(0x9E37_79B9_7F4A_7C15) | 1)
    }

    /// A number below `n`.
    pub fn below(&mut self, n: u64) -> u64 {
        self.0 ^= self.0 >> 12;
        self.0 ^= self.0 << 25;
        self.0 ^= self.0 >> 27;
        ((self.0.wrapping_mul(0x2545_F491_4F6C_DD1D) >> 32) * n) >> 32
    }
}
