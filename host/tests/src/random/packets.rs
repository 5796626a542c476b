//! Packets from a small world of stamps, so that they meet each other at a server.

use super::damage::change;
use super::source::Source;
use shelf::hmac::PreparedKey;
use shelf::sha256::{digest, DIGEST};
use shelf::stamp::{candidate_tag, make_stamp, Stamp, NONCE, STAMP, TAGS_AT};
use shelf::{boxes_of, fragments};

const WRITERS: u8 = 3;
const NUMBERS: u32 = 16;

/// A write as its packets carry it.
struct Write {
    stamp: [u8; STAMP],
    candidate: Vec<u8>,
    /// The body of kind 3 after its stamp, for server 1 (no server looks at the fragment).
    entry: Vec<u8>,
}

pub struct World {
    t: u8,
    writes: Vec<Write>,
}

impl World {
    pub fn new(source: &mut Source, t: u8) -> Self {
        let writers_key = PreparedKey::new(&[0xFF; 32]);
        let keys: Vec<PreparedKey> = (1..=boxes_of(t) as u8).map(|i| PreparedKey::new(&[i; 32])).collect();
        let mut writes = Vec::new();
        for number in 1..=NUMBERS {
            for writer in 1..=WRITERS {
                writes.push(write(source, t, &keys, make_stamp(&writers_key, number, writer)));
            }
        }
        World { t, writes }
    }

    /// A packet of any kind for a server; mostly well formed and allowed, at times with one byte changed.
    pub fn packet(&self, source: &mut Source, server: u8) -> Vec<u8> {
        let kind = if source.once_in(20) { source.below(14) as u8 } else { *source.pick(&[1, 3, 3, 3, 5, 7, 9, 9, 9, 11]) };
        self.of_kind(source, server, kind)
    }

    /// A packet of a kind; the replies that may carry a blank do so at times.
    pub fn of_kind(&self, source: &mut Source, server: u8, kind: u8) -> Vec<u8> {
        let write = source.pick(&self.writes);
        let client = if source.once_in(20) { source.below(18) as u8 } else { write.stamp[4] };
        let call = if source.once_in(20) { source.word() as u32 } else { source.within(1, 9) as u32 };
        let mut bytes = vec![kind, client, server, self.t];
        bytes.extend(call.to_be_bytes());
        match kind {
            2 if source.once_in(4) => bytes.extend([0; STAMP]),
            8 if source.once_in(4) => bytes.extend(vec![0; write.candidate.len()]),
            10 if source.once_in(4) => bytes.extend([0; STAMP + 1]),
            2 => bytes.extend(write.stamp),
            3 => bytes.extend([&write.stamp[..], &write.entry].concat()),
            4 => bytes.push(*source.pick(&[0, 10, 11, 12])),
            5 | 8 | 11 => bytes.extend(self.candidate(source, write)),
            9 => bytes.extend(self.list(source)),
            10 if source.once_in(3) => bytes.extend([&write.stamp[..], &[0]].concat()),
            10 => bytes.extend([&write.stamp[..], &[1], &write.entry].concat()),
            _ => {}
        }
        bytes
    }

    /// A candidate with its right tags, or with something changed after its number and writer.
    fn candidate(&self, source: &mut Source, write: &Write) -> Vec<u8> {
        let mut candidate = write.candidate.clone();
        match source.below(6) {
            0 => change(source, &mut candidate[5..STAMP], usize::MAX),
            1 => change(source, &mut candidate[STAMP..TAGS_AT], usize::MAX),
            2 => candidate[TAGS_AT..].fill(7),
            _ => {}
        }
        candidate
    }

    fn list(&self, source: &mut Source) -> Vec<u8> {
        let count = source.below(boxes_of(self.t) + 1);
        let mut list = vec![count as u8];
        for _ in 0..count {
            let write = source.pick(&self.writes);
            list.extend(self.candidate(source, write));
        }
        list
    }
}

fn write(source: &mut Source, t: u8, keys: &[PreparedKey], stamp: [u8; STAMP]) -> Write {
    let nonce = source.bytes(NONCE);
    let nonce_digest = digest(&nonce);
    let tags: Vec<u8> = keys.iter().flat_map(|key| candidate_tag(key, Stamp(&stamp), &nonce_digest)).collect();
    let length = source.content_length();
    let mut entry = (length as u16).to_be_bytes().to_vec();
    entry.extend(source.bytes(fragments::fragment_length(t, length)));
    entry.extend(source.bytes(DIGEST * keys.len()));
    entry.extend(nonce_digest);
    entry.extend(&tags);
    Write { stamp, candidate: [&stamp[..], &nonce, &tags].concat(), entry }
}
