//! Clients over a shelf of t lying servers and writers that spoil tags: packets lost, late, repeated and damaged.

use super::damage::{change, damage};
use super::source::Source;
use super::states;
use super::steps::{Party, Step};
use crate::check::Run;
use crate::plain;
use cendrulas::{Keys, CLIENT_STATE};
use shelf::hmac::PreparedKey;
use shelf::packet::HEAD;
use shelf::stamp::{make_stamp, TAGS_AT};
use shelf::{boxes, boxes_of, BOX_MEMORY, TOP_NUMBER};

/// Events in the life of a shelf.
const LIFE: usize = 2_000;

/// One client on both sides, in the same state.
struct Pair {
    number: usize,
    /// What it is lent: the shelf's keys, or other bytes where it holds none.
    lent: Keys,
    state: Vec<u8>,
    plain: plain::Client,
}

struct Shelf {
    t: usize,
    keys: Keys,
    memories: Vec<Vec<u8>>,
    clients: Vec<Pair>,
    /// Replies that were on their way, to come late or again.
    old: Vec<Vec<u8>>,
}

/// Lives of shelves until there were as many inputs. In one of five, clients 2 and 9 have made nearly all calls that they may.
pub fn all(run: &mut Run, source: &mut Source, inputs: usize) {
    let begun = run.inputs();
    let mut life = 0;
    while run.inputs() - begun < inputs as u64 {
        life += 1;
        let calls = if life % 5 == 0 { TOP_NUMBER - 8 } else { 0 };
        let mut shelf = Shelf::new(1 + life % 4, calls);
        for _ in 0..LIFE {
            let at = source.below(shelf.clients.len());
            shelf.event(run, source, at);
            if source.once_in(2) {
                shelf.injured(run, source, at);
            }
        }
    }
}

impl Shelf {
    fn new(t: usize, calls: u32) -> Self {
        let keys = crate::vectors::drill_keys();
        let mut memories = vec![vec![0; BOX_MEMORY]; boxes_of(t as u8)];
        for (i, memory) in memories.iter_mut().enumerate() {
            plain::server_blank(memory, t, i + 1);
        }
        let clients = [(1, 0), (2, calls), (9, calls)].map(|(number, calls)| Pair::new(t, number, &keys, calls)).into();
        Shelf { t, keys, memories, clients, old: Vec::new() }
    }

    fn step(&mut self, run: &mut Run, at: usize, step: Step) -> Option<Vec<u8>> {
        let Pair { number, lent, state, plain } = &mut self.clients[at];
        let (answer, mut out) = step.by_three(run, &Party::new(self.t, *number, lent), state, plain);
        out.truncate(answer.count);
        (answer.refusal == 0).then_some(out)
    }

    fn event(&mut self, run: &mut Run, source: &mut Source, at: usize) {
        match source.below(60) {
            0 => drop(self.step(run, at, Step::GiveUp)),
            1..=4 => self.begin(run, source, at),
            5..=7 if !self.old.is_empty() => {
                let packet = source.pick(&self.old).clone();
                self.step(run, at, Step::Take { packet: &packet, room: 1_024 });
            }
            _ => self.visit(run, source, at),
        }
    }

    fn begin(&mut self, run: &mut Run, source: &mut Source, at: usize) {
        if source.once_in(2) {
            self.step(run, at, Step::Read);
            return;
        }
        let length = if source.once_in(20) { 1_025 } else { source.content_length() };
        let (content, nonce) = (source.bytes(length), source.bytes(32));
        self.step(run, at, Step::Write { content: &content, nonce: &nonce });
    }

    /// The current packet to a server, what comes back to the client.
    fn visit(&mut self, run: &mut Run, source: &mut Source, at: usize) {
        let servers = self.memories.len();
        let server = if source.once_in(60) { *source.pick(&[0, servers + 1, 257]) } else { source.within(1, servers) };
        let room = if source.once_in(60) { 6_399 } else { 6_400 };
        let Some(mut packet) = self.step(run, at, Step::Make { server, room }) else {
            return self.begin(run, source, at);
        };
        if packet[0] == 5 && source.once_in(4) {
            packet[HEAD + TAGS_AT..].fill(7); // a lying writer: right stamp and nonce, wrong tags
        }
        let mut reply = vec![0; 6_400];
        let key = [server as u8; 32];
        let Ok(count) = boxes::take(&mut self.memories[server - 1], &key, &packet, &mut reply) else { return };
        reply.truncate(count);
        if server <= self.t && source.once_in(3) {
            self.lie(source, &mut reply);
        }
        let room = if source.once_in(60) { *source.pick(&[0, 1_023]) } else { 1_024 };
        self.step(run, at, Step::Take { packet: &reply, room });
        if source.once_in(4) {
            self.old.push(reply);
        }
    }

    /// A lying server's reply: damaged, or with the highest stamp, or with another body that was on its way.
    fn lie(&self, source: &mut Source, reply: &mut Vec<u8>) {
        match source.below(6) {
            0 if reply[0] == 2 => {
                let stamp = make_stamp(&PreparedKey::new(&self.keys.writers), TOP_NUMBER, 1);
                reply[HEAD..].copy_from_slice(&stamp);
            }
            1 | 2 if reply.len() > HEAD => change(source, &mut reply[HEAD..], usize::MAX),
            3 if !self.old.is_empty() => {
                let other = source.pick(&self.old);
                reply.truncate(HEAD);
                reply.extend(&other[HEAD.min(other.len())..]);
            }
            _ => damage(source, reply),
        }
    }

    /// A step of a copy of the client whose state was damaged.
    fn injured(&self, run: &mut Run, source: &mut Source, at: usize) {
        let Pair { number, lent, state, .. } = &self.clients[at];
        let mut state = state.clone();
        states::injure(source, &mut state);
        states::step(run, source, &Party::new(self.t, *number, lent), &mut state, &self.old);
    }
}

impl Pair {
    /// A client that has begun as many calls, and has none in hand.
    fn new(t: usize, number: usize, keys: &Keys, calls: u32) -> Self {
        let mut state = vec![0; CLIENT_STATE];
        state[..4].copy_from_slice(&calls.to_be_bytes());
        Pair { number, lent: crate::vectors::lent_to(number), state, plain: plain::Client::new(t, number, keys, calls) }
    }
}
