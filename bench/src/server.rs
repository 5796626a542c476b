//! Steps of a server over its lent memory.

use crate::content;
use crate::table::{timed, Table};
use shelf::hmac::PreparedKey;
use shelf::sha256::digest;
use shelf::stamp::{candidate_length, candidate_tag, make_stamp, Stamp, STAMP};
use shelf::{boxes, boxes_of, fragments, BOX_MEMORY, PACKET_OUTPUT};
use std::hint::black_box;

const KEY: [u8; 32] = [1; 32];
/// As many writes as a history holds.
const WRITES: usize = 32;

pub fn rows(table: &mut Table) {
    let writes = Writes::new(4);
    stores(table, &writes);
    for held in [0, 16, 31] {
        store(table, &writes, held);
    }
    filters(table, &writes);
}

/// The packets of some writes of 1,024 bytes to server 1.
pub struct Writes {
    t: u8,
    stores: Vec<Vec<u8>>,
    candidates: Vec<Vec<u8>>,
}

impl Writes {
    pub fn new(t: u8) -> Self {
        let writers = PreparedKey::new(&[0xFF; 32]);
        let keys: Vec<PreparedKey> = (1..=boxes_of(t) as u8).map(|i| PreparedKey::new(&[i; 32])).collect();
        let fragment = content(fragments::fragment_length(t, 1_024));
        let (mut stores, mut candidates) = (Vec::new(), Vec::new());
        for k in 1..=WRITES as u8 {
            let (stamp, nonce) = (make_stamp(&writers, k.into(), 1), [k; 32]);
            let tags: Vec<u8> = keys.iter().flat_map(|key| candidate_tag(key, Stamp(&stamp), &digest(&nonce))).collect();
            let digests: Vec<u8> = keys.iter().flat_map(|_| digest(&fragment)).collect();
            let head = [3, 1, 1, t, 0, 0, 0, k];
            let length = 1_024u16.to_be_bytes();
            stores.push([&head[..], &stamp, &length, &fragment, &digests, &digest(&nonce), &tags].concat());
            candidates.push([&stamp[..], &nonce, &tags].concat());
        }
        Writes { t, stores, candidates }
    }

    /// A server that holds the first writes.
    fn memory(&self, held: usize) -> Vec<u8> {
        let mut memory = vec![0; BOX_MEMORY];
        let mut out = vec![0; PACKET_OUTPUT];
        boxes::make_blank(&mut memory, self.t, 1).expect("a legal server");
        for packet in &self.stores[..held] {
            boxes::take(&mut memory, &KEY, packet, &mut out).expect("a legal packet");
        }
        memory
    }

    fn filter(&self, list: &[Vec<u8>]) -> Vec<u8> {
        let head = [9, 9, 1, self.t, 0, 0, 0, 1, list.len() as u8];
        [&head[..], &list.concat()].concat()
    }
}

/// All stores from a blank server to a full one.
fn stores(table: &mut Table, writes: &Writes) {
    let blank = writes.memory(0);
    let mut out = vec![0; PACKET_OUTPUT];
    let mut plain_out = out.clone();
    table.batches(
        "server: store step, 0 to 31 held (mean), t = 4",
        WRITES,
        || {
            let mut memory = blank.clone();
            timed(|| {
                for packet in &writes.stores {
                    black_box(cendrulas::server_take(&mut memory, &KEY, black_box(packet), &mut out));
                }
            })
        },
        || {
            let mut memory = blank.clone();
            timed(|| {
                for packet in &writes.stores {
                    boxes::take(&mut memory, &KEY, black_box(packet), &mut plain_out).expect("a legal packet");
                }
            })
        },
    );
}

/// One store at a count of held writes; it is taken back each time, on both sides.
pub fn store(table: &mut Table, writes: &Writes, held: usize) {
    let packet = &writes.stores[held];
    let start = writes.memory(held);
    // a memory is three bytes, the latest candidate and the bodies of the stores
    let entry = packet.len() - 8;
    let end = 3 + candidate_length(writes.t) + held * entry;
    let undo = |memory: &mut [u8]| {
        memory[2] = held as u8;
        memory[end..end + entry].fill(0);
    };
    let (mut ours, mut plain) = (start.clone(), start);
    let (mut out, mut plain_out) = (vec![0; PACKET_OUTPUT], vec![0; PACKET_OUTPUT]);
    table.row(
        &format!("server: store step, {held} held, t = {}", writes.t),
        || {
            cendrulas::server_take(&mut ours, &KEY, black_box(packet), &mut out);
            undo(&mut ours);
        },
        || {
            boxes::take(&mut plain, &KEY, black_box(packet), &mut plain_out).expect("a legal packet");
            undo(&mut plain);
        },
    );
}

fn filters(table: &mut Table, writes: &Writes) {
    let servers = boxes_of(writes.t);
    filter_latest(table, writes, WRITES);
    filter(table, writes, &format!("{servers} candidates, held"), WRITES, &writes.candidates[..servers]);
    filter_tagged(table, writes, servers);
    filter_forged(table, writes, servers);
}

/// The latest of so many held writes as the one candidate.
pub fn filter_latest(table: &mut Table, writes: &Writes, held: usize) {
    filter(table, writes, "1 candidate, held", held, &writes.candidates[held - 1..held]);
}

/// So many candidates of which the server holds none, right by their tags.
pub fn filter_tagged(table: &mut Table, writes: &Writes, count: usize) {
    filter(table, writes, &format!("{count} candidates, right by tag"), 0, &writes.candidates[..count]);
}

/// So many candidates with another nonce, which a full server neither holds nor finds tagged.
pub fn filter_forged(table: &mut Table, writes: &Writes, count: usize) {
    let mut forged = writes.candidates[..count].to_vec();
    forged.iter_mut().for_each(|candidate| candidate[STAMP] ^= 1);
    filter(table, writes, &format!("{count} candidates, forged, 32 held"), WRITES, &forged);
}

/// A filter of a server that holds so many; it leaves the memory as it is from the second time on.
fn filter(table: &mut Table, writes: &Writes, words: &str, held: usize, list: &[Vec<u8>]) {
    let name = format!("server: filter, {words}, t = {}", writes.t);
    let (memory, packet) = (writes.memory(held), writes.filter(list));
    let (mut ours, mut plain) = (memory.clone(), memory);
    let (mut out, mut plain_out) = (vec![0; PACKET_OUTPUT], vec![0; PACKET_OUTPUT]);
    table.row(
        &name,
        || cendrulas::server_take(&mut ours, &KEY, black_box(&packet), &mut out),
        || boxes::take(&mut plain, &KEY, black_box(&packet), &mut plain_out).expect("a legal packet"),
    );
    assert!(ours == plain && out == plain_out, "{name}: the two sides differ");
}
