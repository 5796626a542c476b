//! The filter round of the client on its bytes (crates/protocol/specs/Rules.antt).

use super::{four, put, Client, CANDIDATES, CANDIDATE_SLOT, CHOSEN, CONTENT, LENGTH, REPLIES, REPLY_SLOT};
use cendrulas::Answer;
use shelf::packet::after_fragment_length;
use shelf::sha256::{digest, DIGEST};
use shelf::stamp::{STAMP, TAGS_AT};
use shelf::{fragments, quorum_of, RECORD_MAX};

/// A server's reply with a share, cut by the places of its parts.
struct Reply<'a> {
    server: usize,
    stamp: &'a [u8],
    length: usize,
    part: &'a [u8],
    /// Digests, nonce digest and tags.
    rest: &'a [u8],
}

/// Number and writer, which order stamps.
fn rank(stamp: &[u8]) -> (u32, u8) {
    (four(stamp), stamp[4])
}

impl Client<'_> {
    /// The candidates that are not blank, by server number, equal ones once.
    pub(super) fn list(&self) -> Vec<Vec<u8>> {
        let mut list: Vec<Vec<u8>> = Vec::new();
        for i in 0..self.servers() {
            let candidate = &self.state[CANDIDATES + CANDIDATE_SLOT * i..][..self.candidate_size()];
            if four(candidate) != 0 && !list.iter().any(|held| held == candidate) {
                list.push(candidate.to_vec());
            }
        }
        list
    }

    fn slot(&self, server: usize) -> &[u8] {
        &self.state[REPLIES + REPLY_SLOT * (server - 1)..][..REPLY_SLOT]
    }

    fn replied(&self) -> impl Iterator<Item = usize> + '_ {
        (1..=self.servers()).filter(|&server| self.marked(server))
    }

    /// The reply of a server, where it has a share of a length in range.
    fn reply(&self, server: usize) -> Option<Reply<'_>> {
        let (stamp, rest) = self.slot(server).split_at(STAMP);
        let length = u16::from_be_bytes([rest[1], rest[2]]) as usize;
        if rest[0] == 0 || length > RECORD_MAX {
            return None;
        }
        let (part, rest) = rest[3..].split_at(fragments::fragment_length(self.t as u8, length));
        Some(Reply { server, stamp, length, part, rest: &rest[..after_fragment_length(self.t as u8)] })
    }

    /// The replies that speak for a candidate, by server number.
    fn fitting(&self, candidate: &[u8]) -> Vec<Reply<'_>> {
        let nonce_digest = digest(&candidate[STAMP..TAGS_AT]);
        let nonce_place = DIGEST * self.servers();
        let fits = |reply: &Reply| {
            reply.stamp == &candidate[..STAMP]
                && reply.rest[nonce_place..nonce_place + DIGEST] == nonce_digest
                && digest(reply.part) == reply.rest[DIGEST * (reply.server - 1)..DIGEST * reply.server]
        };
        self.replied().filter_map(|server| self.reply(server)).filter(fits).collect()
    }

    /// The first t+1 or more replies that agree with each other, of the group with the lowest server.
    fn group(&self, candidate: &[u8]) -> Option<Vec<Reply<'_>>> {
        let all = self.fitting(candidate);
        all.iter().find_map(|leader| {
            let agree = |reply: &Reply| reply.length == leader.length && reply.rest == leader.rest;
            let group: Vec<Reply> = self.fitting(candidate).into_iter().filter(agree).collect();
            (group.len() > self.t).then_some(group)
        })
    }

    fn stays(&self, candidate: &[u8]) -> bool {
        let lower = self.replied().filter(|&server| rank(self.slot(server)) < rank(candidate)).count();
        (lower as u32) < quorum_of(self.t as u8)
    }

    pub(super) fn take_filter(&mut self, last: bool, server: usize, body: &[u8], out: &mut [u8]) -> Answer {
        put(self.state, REPLIES + REPLY_SLOT * (server - 1), body);
        self.note(server);
        if !last {
            return Answer::wrote(0);
        }
        let left: Vec<Vec<u8>> = self.list().into_iter().filter(|candidate| self.stays(candidate)).collect();
        let Some(top) = left.iter().map(|candidate| rank(candidate)).max() else {
            return Answer { result: 3, ..self.enter(0) };
        };
        let highest = left.iter().filter(|candidate| rank(candidate) == top);
        for candidate in highest {
            if let Some(group) = self.group(candidate) {
                let (content, tags) = self.restored(&group);
                return self.conclude(candidate, content, tags, out);
            }
        }
        Answer::wrote(0)
    }

    fn restored(&self, group: &[Reply]) -> (Vec<u8>, Vec<u8>) {
        let given: Vec<(u8, &[u8])> = group.iter().map(|reply| (reply.server as u8, reply.part)).collect();
        let mut content = vec![0; RECORD_MAX];
        let count = fragments::restore(self.t as u8, group[0].length, &given, &mut content).expect("t+1 fragments of a length");
        content.truncate(count);
        (content, group[0].rest[DIGEST * self.servers() + DIGEST..].to_vec())
    }

    /// The content, or the repair round where the proven tags are others.
    fn conclude(&mut self, candidate: &[u8], content: Vec<u8>, tags: Vec<u8>, out: &mut [u8]) -> Answer {
        if tags == candidate[TAGS_AT..] {
            self.deliver(candidate, &content, out)
        } else {
            put(self.state, LENGTH, &(content.len() as u16).to_be_bytes());
            put(self.state, CONTENT, &content);
            put(self.state, CHOSEN, &[&candidate[..TAGS_AT], &tags].concat());
            self.enter(6)
        }
    }
}
