//! A client that keeps its t, its number and its state, and a server that keeps its key and its memory, so that no call mixes those of two. Neither
//! can be cloned: a party that goes on twice from one state breaks what is proved of the shelf.

use crate::{
    client_begin_read, client_begin_write, client_give_up, client_make, client_round, client_take, server_blank, server_take, store_code, Answer,
    Refusal, CLIENT_STATE, SERVER_KEYS, SERVER_MEMORY,
};

/// The writers' key, and the keys of servers 1 to 13 one after the other.
#[derive(Clone)]
pub struct Keys {
    pub writers: [u8; 32],
    pub servers: [u8; SERVER_KEYS],
}

/// Number and writer of a stamp: two writes are the same if both are.
#[derive(Clone, Copy, Debug, PartialEq, Eq)]
pub struct Label {
    pub number: u32,
    pub writer: u8,
}

/// What a reply that was taken leads to; their numbers in document 01 are 0 to 3.
#[derive(Clone, Copy, Debug, PartialEq, Eq)]
pub enum Taken {
    GoesOn,
    Written(Label),
    /// So many bytes of content stand at the front of the output. A content may have none, and is no `Blank` then.
    Read(Label, usize),
    /// No write stands before this read.
    Blank,
}

/// How a call was given up; 4 and 5 in document 01.
#[derive(Clone, Copy, Debug, PartialEq, Eq)]
pub enum GivenUp {
    /// A read, or a write before its last round, whose content is then never read.
    Before,
    /// A write in its last round: a later read may give its content or not.
    InComplete,
}

/// The round in hand.
#[derive(Clone, Copy, Debug, PartialEq, Eq)]
pub enum Round {
    None,
    Clock,
    Store,
    Complete,
    Collect,
    Filter,
    Repair,
}

const ROUNDS: [(Round, &str); 7] = [
    (Round::None, "none"),
    (Round::Clock, "clock"),
    (Round::Store, "store"),
    (Round::Complete, "complete"),
    (Round::Collect, "collect"),
    (Round::Filter, "filter"),
    (Round::Repair, "repair"),
];

impl Round {
    pub fn name(self) -> &'static str {
        ROUNDS[self as usize].1
    }
}

pub struct Client {
    t: usize,
    number: usize,
    state: Vec<u8>,
}

impl Client {
    pub fn new(t: usize, number: usize) -> Self {
        Client { t, number, state: vec![0; CLIENT_STATE] }
    }

    /// The client that left these bytes as its state; None where they are not of a state's length. Damaged bytes go unnoticed here: a host keeps
    /// a checksum beside them.
    pub fn from_state(t: usize, number: usize, state: &[u8]) -> Option<Self> {
        (state.len() == CLIENT_STATE).then(|| Client { t, number, state: state.to_vec() })
    }

    /// What the host makes durable before the next packet goes out.
    pub fn state(&self) -> &[u8] {
        &self.state
    }

    pub fn round(&self) -> Round {
        ROUNDS[usize::from(client_round(&self.state).result)].0
    }

    /// How many servers have replied in the round in hand.
    pub fn replies(&self) -> usize {
        client_round(&self.state).count
    }

    pub fn has_replied(&self, server: usize) -> bool {
        (1..=13).contains(&server) && client_round(&self.state).number >> (server - 1) & 1 == 1
    }

    pub fn begin_write(&mut self, content: &[u8], nonce: &[u8; 32]) -> Result<(), Refusal> {
        client_begin_write(&mut self.state, self.t, self.number, content, nonce).accepted().map(|_| ())
    }

    pub fn begin_read(&mut self) -> Result<(), Refusal> {
        client_begin_read(&mut self.state, self.t, self.number).accepted().map(|_| ())
    }

    /// The current round's packet for a server, to the front of `out`; its length.
    pub fn make(&self, server: usize, out: &mut [u8]) -> Result<usize, Refusal> {
        client_make(&self.state, self.t, self.number, server, out).accepted().map(|answer| answer.count)
    }

    /// Takes a packet; a content that was read stands at the front of `out`.
    pub fn take(&mut self, keys: &Keys, packet: &[u8], out: &mut [u8]) -> Result<Taken, Refusal> {
        let answer = client_take(&mut self.state, self.t, self.number, &keys.writers, &keys.servers, packet, out).accepted()?;
        let label = Label { number: answer.number, writer: answer.writer };
        Ok(match answer.result {
            0 => Taken::GoesOn,
            1 => Taken::Written(label),
            2 => Taken::Read(label, answer.count),
            _ => Taken::Blank,
        })
    }

    pub fn give_up(&mut self) -> Result<GivenUp, Refusal> {
        let answer = client_give_up(&mut self.state, self.t, self.number).accepted()?;
        Ok(if answer.result == 5 { GivenUp::InComplete } else { GivenUp::Before })
    }
}

/// What a server did with a packet: the length of the reply, which goes out once the memory is durable, if it changed.
#[derive(Clone, Copy, Debug, PartialEq, Eq)]
pub struct Served {
    pub count: usize,
    pub changed: bool,
}

pub struct Server {
    key: [u8; 32],
    memory: Vec<u8>,
}

impl Server {
    /// A server that was never used.
    pub fn blank(t: usize, number: usize, key: [u8; 32]) -> Result<Self, Refusal> {
        let mut memory = vec![0; SERVER_MEMORY];
        server_blank(&mut memory, t, number).accepted().map(|_| Server { key, memory })
    }

    /// The server that left these bytes as its memory; None where they are not of a memory's length. Other bytes are refused by `take`.
    pub fn from_memory(key: [u8; 32], memory: &[u8]) -> Option<Self> {
        (memory.len() == SERVER_MEMORY).then(|| Server { key, memory: memory.to_vec() })
    }

    /// What the host makes durable, where `take` has changed it, before the reply goes out.
    pub fn memory(&self) -> &[u8] {
        &self.memory
    }

    /// Takes a client's packet; the reply stands at the front of `out`.
    pub fn take(&mut self, packet: &[u8], out: &mut [u8]) -> Result<Served, Refusal> {
        let answer: Answer = server_take(&mut self.memory, &self.key, packet, out).accepted()?;
        Ok(Served { count: answer.count, changed: answer.result == 1 })
    }
}

/// What a server did with a store; 0, 10 and 11 in document 01. A full one holds 32 writes, and keeps no other in its life.
#[derive(Clone, Copy, Debug, PartialEq, Eq)]
pub enum Stored {
    Kept,
    Held,
    Full,
}

/// What a server's reply to a store says; None of any other bytes. A write does not end while more than t servers say that they are full.
pub fn stored(packet: &[u8]) -> Option<Stored> {
    let told = store_code(packet).accepted().ok().filter(|answer| answer.result == 1)?;
    Some(match told.count {
        0 => Stored::Kept,
        10 => Stored::Held,
        _ => Stored::Full,
    })
}
