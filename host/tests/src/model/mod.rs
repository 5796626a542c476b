//! The client on the bytes of its state, as crates/protocol/specs/ClientBytes.antt and View.antt have it: read by place, with no range
//! tested, so that it says what becomes of any bytes at all. The plain shelf's client has no such bytes.

mod filter;
mod take;

use cendrulas::Answer;
use shelf::packet::after_fragment_length;
use shelf::stamp::{candidate_length, MAX_CANDIDATE, NONCE, STAMP};
use shelf::{boxes_of, fragments, MAX_BOXES, PACKET_OUTPUT, RECORD_MAX, TOP_NUMBER};

const STATE: usize = 24_640;
const WRONG_SIZE: u8 = 255;
// places in the state: the small state is at its start
const LAST: usize = 4;
const HIGH: usize = 8;
const LENGTH: usize = 12;
const ROUND: usize = 14;
const COUNT: usize = 15;
const MARKS: usize = 16;
const SMALL: usize = 29;
// the kept bytes follow it: slots have room for the most servers, those of replies for the longest reply of any shelf
pub const CONTENT: usize = 64;
const NONCE_AT: usize = CONTENT + RECORD_MAX;
const CHOSEN: usize = NONCE_AT + NONCE;
pub const CANDIDATES: usize = CHOSEN + CANDIDATE_SLOT;
pub const CANDIDATE_SLOT: usize = MAX_CANDIDATE;
pub const REPLIES: usize = CANDIDATES + MAX_BOXES * CANDIDATE_SLOT;
pub const REPLY_SLOT: usize = 1_200;

/// A client: its state, its t and its number.
pub struct Client<'a> {
    pub state: &'a mut [u8],
    pub t: usize,
    pub number: usize,
}

fn four(bytes: &[u8]) -> u32 {
    u32::from_be_bytes(bytes[..4].try_into().expect("four bytes"))
}

fn put(bytes: &mut [u8], at: usize, what: &[u8]) {
    bytes[at..at + what.len()].copy_from_slice(what);
}

impl Client<'_> {
    fn servers(&self) -> usize {
        boxes_of(self.t as u8)
    }

    fn candidate_size(&self) -> usize {
        candidate_length(self.t as u8)
    }

    fn round(&self) -> u8 {
        self.state[ROUND]
    }

    fn in_hand(&self) -> bool {
        (1..=6).contains(&self.round())
    }

    fn content(&self) -> &[u8] {
        let length = u16::from_be_bytes([self.state[LENGTH], self.state[LENGTH + 1]]) as usize;
        &self.state[CONTENT..CONTENT + length.min(RECORD_MAX)]
    }

    /// Refusals 255 and 3.
    fn shelf_refusal(&self) -> Option<u8> {
        let sized = self.state.len() == STATE;
        (!sized).then_some(WRONG_SIZE).or((!(1..=4).contains(&self.t)).then_some(3))
    }

    /// Refusals 255, 3 and 5.
    fn refusal(&self, most: usize) -> Option<u8> {
        self.shelf_refusal().or((!(1..=most).contains(&self.number)).then_some(5))
    }

    /// Refusals 255, 3 and 5 of a step with a call in hand: a write is for 1 to 8 in each of its rounds.
    fn call_refusal(&self) -> Option<u8> {
        self.shelf_refusal().or_else(|| self.refusal(if (1..=3).contains(&self.round()) { 8 } else { 16 }))
    }

    fn enter(&mut self, round: u8) -> Answer {
        self.state[ROUND..SMALL].fill(0);
        self.state[ROUND] = round;
        Answer::wrote(0)
    }

    fn begin(&mut self, round: u8) -> Result<(), u8> {
        if self.in_hand() {
            return Err(13);
        }
        let call = four(self.state);
        if call >= TOP_NUMBER {
            return Err(14);
        }
        put(self.state, 0, &(call + 1).to_be_bytes());
        self.enter(round);
        Ok(())
    }

    /// The round in hand and the servers that are marked in it, all 13 whatever t is.
    pub fn hand(&self) -> Answer {
        if self.state.len() != STATE {
            return Answer::refused(WRONG_SIZE);
        }
        let marked: Vec<usize> = (0..13).filter(|&i| self.state[MARKS + i] != 0).collect();
        let round = if self.in_hand() { self.round() } else { 0 };
        Answer { result: round, number: marked.iter().map(|&i| 1 << i).sum(), ..Answer::wrote(marked.len()) }
    }

    pub fn begin_write(&mut self, content: &[u8], nonce: &[u8]) -> Answer {
        let sized = self.state.len() == STATE && nonce.len() == NONCE;
        let length = (content.len() > RECORD_MAX).then_some(6);
        let before = (!sized).then_some(WRONG_SIZE).or(self.refusal(8)).or(length);
        let refused = before.or_else(|| self.begin(1).err());
        if let Some(refusal) = refused {
            return Answer::refused(refusal);
        }
        self.state.copy_within(LAST..HIGH, HIGH);
        put(self.state, LENGTH, &(content.len() as u16).to_be_bytes());
        put(self.state, CONTENT, content);
        put(self.state, NONCE_AT, nonce);
        Answer::wrote(0)
    }

    pub fn begin_read(&mut self) -> Answer {
        match self.refusal(16).or_else(|| self.begin(4).err()) {
            Some(refusal) => Answer::refused(refusal),
            None => {
                self.state[CANDIDATES..REPLIES].fill(0);
                Answer::wrote(0)
            }
        }
    }

    pub fn give_up(&mut self) -> Answer {
        match self.call_refusal().or_else(|| (!self.in_hand()).then_some(13)) {
            Some(refusal) => Answer::refused(refusal),
            None => {
                let result = if self.round() == 3 { 5 } else { 4 };
                Answer { result, ..self.enter(0) }
            }
        }
    }

    pub fn make(&self, server: usize, out: &mut [u8]) -> Answer {
        let refused = self
            .shelf_refusal()
            .or_else(|| (!(1..=self.servers()).contains(&server)).then_some(4))
            .or_else(|| self.call_refusal())
            .or_else(|| (!self.in_hand()).then_some(13))
            .or((out.len() < PACKET_OUTPUT).then_some(15));
        if let Some(refusal) = refused {
            return Answer::refused(refusal);
        }
        let mut packet = vec![2 * self.round() - 1, self.number as u8, server as u8, self.t as u8];
        packet.extend(&self.state[..4]);
        packet.extend(self.body(server));
        put(out, 0, &packet);
        Answer::wrote(packet.len())
    }

    fn body(&self, server: usize) -> Vec<u8> {
        let chosen = &self.state[CHOSEN..];
        match self.round() {
            2 => {
                let slot = &self.state[REPLIES + REPLY_SLOT * (server - 1)..][..REPLY_SLOT];
                let length = u16::from_be_bytes([slot[0], slot[1]]) as usize;
                let size = 2 + fragments::fragment_length(self.t as u8, length) + after_fragment_length(self.t as u8);
                [&chosen[..STAMP], &slot[..size.min(REPLY_SLOT)]].concat()
            }
            3 | 6 => chosen[..self.candidate_size()].to_vec(),
            5 => {
                let list = self.list();
                [&[list.len() as u8], &list.concat()[..]].concat()
            }
            _ => Vec::new(),
        }
    }
}
