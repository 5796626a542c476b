//! Refusals by name. Their numbers are those of document 01, "What is turned down", and of document 02; 255 is the library's own.

use std::fmt;

/// Why a call was turned down. It has changed nothing.
#[derive(Clone, Copy, Debug, PartialEq, Eq)]
#[repr(u8)]
pub enum Refusal {
    MemorySize = 1,
    NoServer = 2,
    T = 3,
    Server = 4,
    Client = 5,
    ContentLength = 6,
    NoPacket = 7,
    NotMine = 8,
    NotAllowed = 9,
    WrongReply = 12,
    WrongMoment = 13,
    NumbersUsedUp = 14,
    OutputTooSmall = 15,
    Fragments = 16,
    DrillLine = 17,
    Stores = 18,
    /// An argument of a wrong size, for which the documents have no number.
    WrongSize = 255,
}

/// Each with its number and the words of cendrulas_refusal_name.
const NAMES: [(Refusal, &str); 17] = [
    (Refusal::MemorySize, "memory or work area of a wrong size"),
    (Refusal::NoServer, "memory that is no server's"),
    (Refusal::T, "t outside 1 to 4"),
    (Refusal::Server, "server outside 1 to 3t+1"),
    (Refusal::Client, "client outside 1 to 16, or a write by 9 to 16"),
    (Refusal::ContentLength, "content length above 1,024"),
    (Refusal::NoPacket, "bytes that are no packet"),
    (Refusal::NotMine, "packet for another t, server or client"),
    (Refusal::NotAllowed, "packet that no client may send here"),
    (Refusal::WrongReply, "no reply of this call and round, or a second one"),
    (Refusal::WrongMoment, "a call is in hand at a begin, or none is at another step"),
    (Refusal::NumbersUsedUp, "call or stamp numbers used up"),
    (Refusal::OutputTooSmall, "output too small"),
    (Refusal::Fragments, "too few different servers, or fragments of a wrong length"),
    (Refusal::DrillLine, "drill line not of the form"),
    (Refusal::Stores, "more stores than a memory holds"),
    (Refusal::WrongSize, "argument of a wrong size"),
];

impl Refusal {
    /// The refusal of a number that the library answers, other than 0.
    pub(crate) fn of(number: u8) -> Self {
        let named = NAMES.iter().find(|(refusal, _)| *refusal as u8 == number);
        named.unwrap_or_else(|| panic!("the library never answers refusal {number}")).0
    }

    pub fn number(self) -> u8 {
        self as u8
    }

    pub fn name(self) -> &'static str {
        NAMES.iter().find(|(refusal, _)| *refusal == self).map_or("", |(_, name)| name)
    }
}

impl fmt::Display for Refusal {
    fn fmt(&self, f: &mut fmt::Formatter) -> fmt::Result {
        write!(f, "{} ({})", self.name(), self.number())
    }
}

impl std::error::Error for Refusal {}
