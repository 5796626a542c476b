//! States of clients that no life leads to, and arguments out of range: every value of the bytes has a meaning, which the model gives.

use super::damage::change;
use super::source::Source;
use super::steps::{Names, Party, Step, ANY_STATE, CLIENT};
use crate::check::Run;
use crate::model::{CANDIDATES, CANDIDATE_SLOT, CONTENT, REPLIES, REPLY_SLOT};
use cendrulas::CLIENT_STATE;
use shelf::stamp::STAMP;
use shelf::TOP_NUMBER;

/// Damage to a state: of its numbers, round, count and marks, of the slots, or of everything.
pub fn injure(source: &mut Source, state: &mut [u8]) {
    match source.below(12) {
        0 => {
            let round = source.below(8) as u8;
            state.iter_mut().for_each(|byte| *byte = source.byte());
            state[14] = round;
        }
        1 => {
            let at = 4 * source.below(3);
            let number = TOP_NUMBER.wrapping_add(source.below(4) as u32).wrapping_sub(2);
            state[at..at + 4].copy_from_slice(&number.to_be_bytes());
        }
        2 => state[14] = source.below(8) as u8,
        3 => state[15] = *source.pick(&[0, 2, 4, 8, 12, 13, 255]),
        4 => state[16..29].iter_mut().for_each(|mark| *mark = source.below(3) as u8),
        5 => change(source, state, 29),
        6 => state[12..14].copy_from_slice(&source.pick(&[0u16, 1, 1_024, 1_025, 65_535]).to_be_bytes()),
        7 => {
            let (from, to) = (source.below(13), source.below(13));
            let slot = CANDIDATES + CANDIDATE_SLOT * from..CANDIDATES + CANDIDATE_SLOT * (from + 1);
            state.copy_within(slot, CANDIDATES + CANDIDATE_SLOT * to);
        }
        8 => {
            let at = REPLIES + REPLY_SLOT * source.below(13) + *source.pick(&[0, 4, STAMP, STAMP + 1, STAMP + 2, STAMP + 3, 600]);
            state[at] = source.byte();
        }
        9 => change(source, &mut state[CANDIDATES..], usize::MAX),
        _ => change(source, &mut state[CONTENT..], usize::MAX),
    }
}

/// Any step on a state; a packet is mostly one that its round awaits.
pub fn step(run: &mut Run, source: &mut Source, party: &Party, state: &mut [u8], old: &[Vec<u8>]) {
    let party = Party {
        t: if source.once_in(60) { *source.pick(&[0, 5, 257]) } else { party.t },
        number: if source.once_in(60) { *source.pick(&[0, 17, 257]) } else { party.number },
        writers: if source.once_in(200) { &party.writers[1..] } else { party.writers },
        keys: if source.once_in(200) { &party.keys[1..] } else { party.keys },
    };
    let short = source.once_in(100) as usize;
    let state = &mut state[short..];
    let length = *source.pick(&[0, 1, 300, 1_024, 1_025]);
    let (content, nonce) = (source.bytes(length), source.bytes(32));
    let nonce_length = if source.once_in(20) { 31 } else { 32 };
    let server = source.below(3 * party.t.min(4) + 3);
    match source.below(12) {
        0 => Step::Write { content: &content, nonce: &nonce[..nonce_length] }.by_two(run, &ANY_STATE, &party, state),
        1 => Step::Read.by_two(run, &ANY_STATE, &party, state),
        2 => Step::GiveUp.by_two(run, &ANY_STATE, &party, state),
        3..=5 => {
            let room = if source.once_in(30) { 6_399 } else { 6_400 };
            Step::Make { server, room }.by_two(run, &ANY_STATE, &party, state)
        }
        _ => {
            let packet = awaited(source, &party, state, old);
            let room = if source.once_in(30) { 1_023 } else { 1_024 };
            Step::Take { packet: &packet, room }.by_two(run, &ANY_STATE, &party, state)
        }
    };
}

/// A reply of the kind that the round awaits, for this client and call, from those on their way; any of them where there is none.
fn awaited(source: &mut Source, party: &Party, state: &[u8], old: &[Vec<u8>]) -> Vec<u8> {
    let due: Vec<&Vec<u8>> = old.iter().filter(|packet| packet.first() == Some(&(state[14].wrapping_mul(2)))).collect();
    let mut packet = match (due.is_empty(), old.is_empty()) {
        (false, _) => source.pick(&due).to_vec(),
        (_, false) => source.pick(old).clone(),
        _ => vec![2, 1, 1, 1],
    };
    if packet.len() >= 8 && !source.once_in(30) {
        packet[1] = party.number as u8;
        packet[4..8].copy_from_slice(&state[..4]);
    }
    packet
}

/// Every operation of a new client looks at the sizes, then at t, then at the client's number (255, 3 and 5), unnarrowed.
pub fn out_of_range(run: &mut Run) {
    let numbers = [0, 1, 8, 9, 16, 17, 257, usize::MAX];
    for t in [0, 1, 4, 5, 257, usize::MAX] {
        for number in numbers {
            let keys = crate::vectors::lent_to(number);
            let party = Party::new(t, number, &keys);
            every(run, &CLIENT, &party, CLIENT_STATE, 32);
            every(run, &CLIENT, &Party { writers: &keys.writers[1..], ..party }, CLIENT_STATE, 31);
            every(run, &CLIENT, &Party { keys: &keys.servers[..13], ..party }, CLIENT_STATE + 1, 33);
            every(run, &CLIENT, &party, 0, 0);
        }
    }
}

/// The five operations, each on a new state of a length.
fn every(run: &mut Run, names: &Names, party: &Party, length: usize, nonce: usize) {
    let steps = [
        Step::Write { content: &[1], nonce: &[2; 33][..nonce] },
        Step::Read,
        Step::Make { server: 1, room: 6_400 },
        Step::Make { server: 14, room: 0 },
        Step::Take { packet: &[], room: 1_024 },
        Step::GiveUp,
    ];
    for step in steps {
        step.by_two(run, names, party, &mut vec![0; length]);
    }
}
