//! A step of a client as a value, to be taken by the library, by the model of its bytes and by the plain shelf.

use crate::check::{Run, Seen, FILLER};
use crate::kinds::{emptied, given_up, kind, made, plainly, taken};
use crate::text::hex;
use crate::{model, plain};
use cendrulas::{Answer, Keys};

/// What the caller says of the client with every step.
#[derive(Clone, Copy)]
pub struct Party<'a> {
    pub t: usize,
    pub number: usize,
    pub writers: &'a [u8],
    pub keys: &'a [u8],
}

impl<'a> Party<'a> {
    pub fn new(t: usize, number: usize, keys: &'a Keys) -> Self {
        Party { t, number, writers: &keys.writers, keys: &keys.servers }
    }
}

pub enum Step<'a> {
    Write { content: &'a [u8], nonce: &'a [u8] },
    Read,
    Make { server: usize, room: usize },
    Take { packet: &'a [u8], room: usize },
    GiveUp,
}

/// The names under which answers are counted.
pub type Names = [&'static str; 5];

pub const CLIENT: Names =
    ["client begins to write", "client begins to read", "client makes", "client takes", "client gives up"];
pub const ANY_STATE: Names =
    ["any state begins to write", "any state begins to read", "any state makes", "any state takes", "any state gives up"];

impl Step<'_> {
    fn room(&self) -> usize {
        match self {
            Step::Make { room, .. } | Step::Take { room, .. } => *room,
            _ => 0,
        }
    }

    fn on_library(&self, state: &mut [u8], p: &Party, out: &mut [u8]) -> Answer {
        match self {
            Step::Write { content, nonce } => cendrulas::client_begin_write(state, p.t, p.number, content, nonce),
            Step::Read => cendrulas::client_begin_read(state, p.t, p.number),
            Step::Make { server, .. } => cendrulas::client_make(state, p.t, p.number, *server, out),
            Step::Take { packet, .. } => cendrulas::client_take(state, p.t, p.number, p.writers, p.keys, packet, out),
            Step::GiveUp => cendrulas::client_give_up(state, p.t, p.number),
        }
    }

    fn on_model(&self, state: &mut [u8], p: &Party, out: &mut [u8]) -> Answer {
        let mut client = model::Client { state, t: p.t, number: p.number };
        match self {
            Step::Write { content, nonce } => client.begin_write(content, nonce),
            Step::Read => client.begin_read(),
            Step::Make { server, .. } => client.make(*server, out),
            Step::Take { packet, .. } => client.take(p.writers, p.keys, packet, out),
            Step::GiveUp => client.give_up(),
        }
    }

    /// For a legal party and a nonce of its size.
    fn on_plain(&self, client: &mut plain::Client, out: &mut [u8]) -> Answer {
        match self {
            Step::Write { content, nonce } => client.begin_write(content, nonce[..].try_into().expect("a nonce")),
            Step::Read => client.begin_read(),
            Step::Make { server, .. } => client.make(*server, out),
            Step::Take { packet, .. } => client.take(packet, out),
            Step::GiveUp => client.give_up(),
        }
    }

    fn count(&self, run: &mut Run, names: &Names, answer: &Answer, out: &[u8]) {
        let (name, kind) = match self {
            Step::Write { content, .. } => (names[0], kind(answer, || emptied("accepted".into(), content.is_empty()))),
            Step::Read => (names[1], plainly(answer)),
            Step::Make { .. } => (names[2], made(answer, out)),
            Step::Take { packet, .. } => (names[3], taken(answer, packet)),
            Step::GiveUp => (names[4], given_up(answer)),
        };
        run.kinds.saw(name, kind);
    }

    fn say(&self, p: &Party) -> String {
        let what = match self {
            Step::Write { content, nonce } => format!("begins to write {} with {}", hex(content), hex(nonce)),
            Step::Read => "begins a read".into(),
            Step::Make { server, room } => format!("makes a packet for {server}, room {room}"),
            Step::Take { packet, room } => format!("takes {}, room {room}", hex(packet)),
            Step::GiveUp => "gives up".into(),
        };
        format!("client {} of t {} {what}, keys of {} and {} bytes", p.number, p.t, p.writers.len(), p.keys.len())
    }

    /// Taken by the library and by the model, from one state: answer, output and state are compared. Gives answer and output.
    pub fn by_two(&self, run: &mut Run, names: &Names, p: &Party, state: &mut [u8]) -> (Answer, Vec<u8>) {
        let before = state.to_vec();
        let mut due = before.clone();
        let (mut got, mut want) = (vec![FILLER; self.room()], vec![FILLER; self.room()]);
        let answer = self.on_library(state, p, &mut got);
        let modelled = self.on_model(&mut due, p, &mut want);
        run.same(
            || format!("{}, state {}", self.say(p), hex(&before)),
            Seen { answer, buffers: &[&got, state] },
            Seen { answer: modelled, buffers: &[&want, &due] },
        );
        let hand = cendrulas::client_round(state);
        let marked = model::Client { state, t: p.t, number: p.number }.hand();
        run.also(
            || format!("the round of state {}", hex(&before)),
            Seen { answer: hand, buffers: &[] },
            Seen { answer: marked, buffers: &[] },
        );
        run.kinds.saw("round in hand", kind(&hand, || format!("round {}", hand.result)));
        self.count(run, names, &answer, &got);
        (answer, got)
    }

    /// By all three; the plain client stands in the same state.
    pub fn by_three(&self, run: &mut Run, p: &Party, state: &mut [u8], client: &mut plain::Client) -> (Answer, Vec<u8>) {
        let before = state.to_vec();
        let mut want = vec![FILLER; self.room()];
        let due = self.on_plain(client, &mut want);
        let (answer, got) = self.by_two(run, &CLIENT, p, state);
        run.also(
            || format!("{}, state {}", self.say(p), hex(&before)),
            Seen { answer, buffers: &[&got] },
            Seen { answer: due, buffers: &[&want] },
        );
        (answer, got)
    }
}
