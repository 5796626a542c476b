//! Memories and steps of a server.

use super::{due, shelf};
use crate::check::{Run, Seen, FILLER};
use crate::text::{each_line, hex, Line};
use cendrulas::{server_blank, server_take, Answer, SERVER_MEMORY};
use std::path::Path;

/// No packet breaks its layout as much as the empty one: 1 or 2 for the memory, or 7 where it is a server's.
pub fn memories(run: &mut Run, path: &Path) {
    each_line(path, |line| {
        line.past("B");
        let length = line.number();
        let mut memory = line.bytes();
        if memory.len() > length {
            line.stop("BYTES are more than LENGTH");
        }
        memory.resize(length, 0);
        line.past("=");
        let answer = server_take(&mut memory, &[1; 32], &[], &mut []);
        let code: u8 = line.number();
        let want = Answer::refused(if code == 0 { 7 } else { code });
        run.same(|| line.place.clone(), Seen { answer, buffers: &[] }, Seen { answer: want, buffers: &[] });
    });
}

struct Server {
    key: [u8; 32],
    memory: Vec<u8>,
}

pub fn steps(run: &mut Run, path: &Path) {
    let mut server = None;
    each_line(path, |line| match line.word() {
        "BOX" => server = Some(blank(line)),
        "BOXFROM" => server = Some(from_fields(line)),
        "P" => match &mut server {
            Some(server) => step(run, line, server),
            None => line.stop("no server stands before it"),
        },
        _ => line.stop("it begins with none of BOX, BOXFROM and P"),
    });
}

/// Made blank over bytes that are no memory, so that all of them must be written.
fn blank(line: &mut Line) -> Server {
    let (t, number): (usize, u8) = (shelf(line), line.number());
    line.only("PROMISES", "-");
    let mut memory = vec![FILLER; SERVER_MEMORY];
    let answer = server_blank(&mut memory, t, number.into());
    if answer.refusal != 0 {
        line.stop("the library makes no such server");
    }
    Server { key: [number; 32], memory }
}

fn from_fields(line: &mut Line) -> Server {
    shelf(line);
    let number: u8 = line.number();
    let mut memory = line.bytes();
    memory.resize(SERVER_MEMORY.max(memory.len()), 0);
    Server { key: [number; 32], memory }
}

fn step(run: &mut Run, line: &mut Line, server: &mut Server) {
    let packet = line.bytes();
    let mut out = vec![FILLER; line.number()];
    line.past("=");
    let before = server.memory.clone();
    let answer = server_take(&mut server.memory, &server.key, &packet, &mut out);
    let changed = (server.memory != before) as u8;
    run.also(|| line.place.clone(), Seen { answer: answer.result, buffers: &[] }, Seen { answer: changed, buffers: &[] });
    due(run, line, Answer { result: 0, ..answer }, &out);
    line.past("memory");
    let (digest, due) = (hex(&::shelf::sha256::digest(&server.memory)), line.word());
    run.also(|| line.place.clone(), Seen { answer: &digest[..], buffers: &[] }, Seen { answer: due, buffers: &[] });
}
