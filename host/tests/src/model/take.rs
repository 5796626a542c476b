//! The client on its bytes takes a reply: refusals, and every round but filter.

use super::{four, put, Client, CANDIDATES, CANDIDATE_SLOT, CHOSEN, COUNT, HIGH, LAST, MARKS, NONCE_AT, REPLIES, REPLY_SLOT, STATE, WRONG_SIZE};
use cendrulas::Answer;
use shelf::hmac::tag;
use shelf::packet::{decode, HEAD};
use shelf::sha256::digest;
use shelf::stamp::STAMP;
use shelf::{fragments, quorum_of, RECORD_OUTPUT, TOP_NUMBER};

impl Client<'_> {
    pub fn take(&mut self, writers: &[u8], keys: &[u8], packet: &[u8], out: &mut [u8]) -> Answer {
        let sized = self.state.len() == STATE && writers.len() == 32 && keys.len() == 416;
        let refused = (!sized).then_some(WRONG_SIZE).or_else(|| self.call_refusal()).or_else(|| self.reply_refusal(packet));
        if let Some(refusal) = refused {
            return Answer::refused(refusal);
        }
        let (server, body) = (packet[2] as usize, &packet[HEAD..]);
        // the marks decide, whatever count the state was lent with
        let last = self.marks_with(server) >= quorum_of(self.t as u8);
        let high = if self.round() == 1 { self.higher(writers, body) } else { 0 };
        if last && high >= TOP_NUMBER {
            return Answer::refused(14);
        }
        if out.len() < RECORD_OUTPUT {
            return Answer::refused(15);
        }
        match self.round() {
            1 => self.take_clock(last, high, server, writers, keys),
            2 if body[0] == 11 => self.recount(),
            5 => self.take_filter(last, server, body, out),
            round => {
                if round == 4 {
                    put(self.state, CANDIDATES + CANDIDATE_SLOT * (server - 1), body);
                }
                if !last {
                    return self.note(server);
                }
                self.end(round, out)
            }
        }
    }

    fn reply_refusal(&self, packet: &[u8]) -> Option<u8> {
        let Some(p) = decode(packet) else { return Some(7) };
        if usize::from(p.t) != self.t || usize::from(p.client) != self.number {
            return Some(8);
        }
        if !self.in_hand() {
            return Some(13);
        }
        let due = p.call == four(self.state) && p.kind == 2 * self.round();
        (!due || self.marked(p.box_no.into())).then_some(12)
    }

    pub(super) fn marked(&self, server: usize) -> bool {
        self.state[MARKS + server - 1] != 0
    }

    pub(super) fn note(&mut self, server: usize) -> Answer {
        self.state[MARKS + server - 1] = 1;
        self.recount()
    }

    /// The count is that of the shelf's servers that are marked.
    fn recount(&mut self) -> Answer {
        self.state[COUNT] = (1..=self.servers()).filter(|&i| self.marked(i)).count() as u8;
        Answer::wrote(0)
    }

    /// How many servers are marked once this one is.
    fn marks_with(&self, server: usize) -> u32 {
        (1..=self.servers()).filter(|&i| i == server || self.marked(i)).count() as u32
    }

    /// The highest number in clock, with this reply's stamp where its tag checks.
    fn higher(&self, writers: &[u8], stamp: &[u8]) -> u32 {
        let (high, number) = (four(&self.state[HIGH..]), four(stamp));
        let checks = number != 0 && tag(writers.try_into().expect("a key"), &stamp[..5]) == stamp[5..];
        if checks && high < number { number } else { high }
    }

    fn take_clock(&mut self, last: bool, high: u32, server: usize, writers: &[u8], keys: &[u8]) -> Answer {
        if !last {
            put(self.state, HIGH, &high.to_be_bytes());
            return self.note(server);
        }
        put(self.state, LAST, &(high + 1).to_be_bytes());
        let key = |i: usize| keys[32 * i..32 * (i + 1)].try_into().expect("a key");
        let mut stamp = [&(high + 1).to_be_bytes()[..], &[self.number as u8]].concat();
        stamp.extend(tag(writers.try_into().expect("a key"), &stamp));
        let nonce = self.state[NONCE_AT..CHOSEN].to_vec();
        let message = [&stamp[..], &digest(&nonce)].concat();
        let tags: Vec<u8> = (0..self.servers()).flat_map(|i| tag(&key(i), &message)).collect();
        let pieces = self.pieces();
        let digests: Vec<u8> = pieces.iter().flat_map(|piece| digest(piece)).collect();
        let length = (self.content().len() as u16).to_be_bytes();
        for (i, piece) in pieces.iter().enumerate() {
            let share = [&length[..], piece, &digests, &digest(&nonce), &tags].concat();
            put(self.state, REPLIES + REPLY_SLOT * i, &share);
        }
        put(self.state, CHOSEN, &[stamp, nonce, tags].concat());
        self.enter(2)
    }

    /// The content's fragments for servers 1 to S.
    fn pieces(&self) -> Vec<Vec<u8>> {
        let mut all = [0; fragments::ALL_FRAGMENTS];
        let f = fragments::make(self.t as u8, self.content(), &mut all).expect("no state has a longer content");
        (0..self.servers()).map(|i| all[i * f..(i + 1) * f].to_vec()).collect()
    }

    /// The last reply of a round other than clock and filter.
    fn end(&mut self, round: u8, out: &mut [u8]) -> Answer {
        let stamp = self.state[CHOSEN..CHOSEN + STAMP].to_vec();
        match round {
            3 => self.told(1, &stamp, 0),
            6 => {
                let content = self.content().to_vec();
                self.deliver(&stamp, &content, out)
            }
            _ => self.enter(round + 1),
        }
    }

    pub(super) fn deliver(&mut self, stamp: &[u8], content: &[u8], out: &mut [u8]) -> Answer {
        put(out, 0, content);
        self.told(2, stamp, content.len())
    }

    /// The call has ended, and its stamp is told.
    fn told(&mut self, result: u8, stamp: &[u8], count: usize) -> Answer {
        self.enter(0);
        Answer { result, number: four(stamp), writer: stamp[4] % 16, ..Answer::wrote(count) }
    }
}
