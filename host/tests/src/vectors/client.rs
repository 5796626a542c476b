//! Steps of clients against honest and lying servers.

use super::{filled, shelf, table};
use crate::check::{Run, Seen, FILLER};
use crate::text::{each_line, Line};
use cendrulas::{
    client_begin_read, client_begin_write, client_give_up, client_make, client_round, client_take, Answer, Keys, CLIENT_STATE,
};
use std::path::Path;

/// The keys of the examples and of a drill.
pub fn drill_keys() -> Keys {
    Keys { writers: [0xFF; 32], servers: std::array::from_fn(|i| (i / 32) as u8 + 1) }
}

/// The keys that a client is lent. Clients 9 to 16 hold none and are lent other bytes, which must make no difference.
pub fn lent_to(client: usize) -> Keys {
    match client {
        9..=16 => Keys { writers: [0xA5; 32], servers: std::array::from_fn(|i| (7 * i + client) as u8) },
        _ => drill_keys(),
    }
}

struct Client {
    t: usize,
    number: usize,
    keys: Keys,
    state: Vec<u8>,
}

pub fn clients(run: &mut Run, path: &Path) {
    let mut client = None;
    each_line(path, |line| match (line.word(), &mut client) {
        ("CLIENT", _) => client = Some(Client::new(line)),
        (verb, Some(client)) => client.step(run, verb, line),
        _ => line.stop("no CLIENT stands before it"),
    });
}

impl Client {
    fn new(line: &mut Line) -> Self {
        let (t, number) = (shelf(line), line.number());
        table(line, t);
        Client { t, number, keys: lent_to(number), state: vec![0; CLIENT_STATE] }
    }

    fn step(&mut self, run: &mut Run, verb: &str, line: &mut Line) {
        let (answer, out) = self.act(verb, line);
        let (want, bytes) = due(verb, line);
        // the vectors tell no writer; the plain shelf does (random/)
        let want = Answer { writer: answer.writer, ..want };
        line.past("round");
        let (round, due_round) = ([client_round(&self.state).result], [line.number()]);
        let left = filled(&bytes, out.len());
        run.same(
            || line.place.clone(),
            Seen { answer, buffers: &[&out, &round] },
            Seen { answer: want, buffers: &[&left, &due_round] },
        );
    }

    /// The answer of a step, and the output that was lent to it.
    fn act(&mut self, verb: &str, line: &mut Line) -> (Answer, Vec<u8>) {
        let Client { t, number, keys, state } = self;
        let mut out = Vec::new();
        let answer = match verb {
            "W" => {
                let (content, nonce) = (line.bytes(), line.bytes());
                line.only("SHELF", "0");
                client_begin_write(state, *t, *number, &content, &nonce)
            }
            "R" => {
                line.only("SHELF", "0");
                client_begin_read(state, *t, *number)
            }
            "G" => client_give_up(state, *t, *number),
            "M" => {
                let server = line.number();
                out.resize(line.number(), FILLER);
                client_make(state, *t, *number, server, &mut out)
            }
            "T" => {
                let packet = line.bytes();
                out.resize(line.number(), FILLER);
                client_take(state, *t, *number, &keys.writers, &keys.servers, &packet, &mut out)
            }
            _ => line.stop("it begins with none of CLIENT, W, R, M, T and G"),
        };
        (answer, out)
    }
}

/// What stands between ` = ` and `round`, for each kind of step.
fn due(verb: &str, line: &mut Line) -> (Answer, Vec<u8>) {
    line.past("=");
    let code: u8 = line.number();
    if code != 0 {
        return (Answer::refused(code), Vec::new());
    }
    match verb {
        "G" => (Answer { result: line.number(), ..Answer::wrote(0) }, Vec::new()),
        "M" => {
            let packet = line.bytes();
            (Answer::wrote(packet.len()), packet)
        }
        "T" => {
            let (result, number, content) = (line.number(), line.number(), line.bytes());
            (Answer { result, number, ..Answer::wrote(content.len()) }, content)
        }
        _ => (Answer::wrote(0), Vec::new()),
    }
}
