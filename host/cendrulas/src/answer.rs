//! How an answer stands in one number; crates/embed/specs/Packing.antt is its definition.

use crate::Refusal;

/// What an operation answers.
#[derive(Clone, Copy, Debug, PartialEq, Eq)]
pub struct Answer {
    /// 0, or the number of the refusal.
    pub refusal: u8,
    /// Of a client's step as a drill listing shows it: 0 goes on, 1 written, 2 read, 3 blank, 4 and 5 given up. Of a server's step: 1 where its
    /// memory changed.
    pub result: u8,
    /// The stamp's writer and number, with a client's results 1 and 2.
    pub writer: u8,
    pub number: u32,
    /// Bytes written to the output; numbers, of a plan; servers, of weights.
    pub count: usize,
}

impl Answer {
    pub fn refused(refusal: u8) -> Self {
        Answer { refusal, ..Answer::wrote(0) }
    }

    pub fn wrote(count: usize) -> Self {
        Answer { refusal: 0, result: 0, writer: 0, number: 0, count }
    }

    /// The answer where the call was accepted.
    pub fn accepted(self) -> Result<Self, Refusal> {
        match self.refusal {
            0 => Ok(self),
            number => Err(Refusal::of(number)),
        }
    }

    pub(crate) fn unpack(word: u64) -> Self {
        Answer {
            refusal: (word >> 56) as u8,
            result: (word >> 48) as u8 & 0xF,
            writer: (word >> 52) as u8 & 0xF,
            number: (word >> 16) as u32,
            count: (word & 0xFFFF) as usize,
        }
    }
}
