//! Fragments of every length, and restoring from servers in any order, repeated, too few or out of range.

use super::source::Source;
use crate::check::{Run, Seen, FILLER};
use crate::kinds::{emptied, plainly};
use crate::plain;
use crate::text::hex;
use shelf::fragments;

pub fn all(run: &mut Run, source: &mut Source, inputs: usize) {
    for k in 0..inputs {
        let t = argument(source, 1, 4);
        let room = if source.once_in(12) { source.below(1_024) } else { source.within(1_024, 1_040) };
        let length = if source.once_in(12) { *source.pick(&[1, 2, 1_023, 1_025, 3_000]) } else { source.content_length() };
        let content = source.bytes(length);
        if k % 2 == 0 {
            let server = argument(source, 1, 3 * t.min(5) + 1);
            fragment(run, t, server, &content, room);
        } else {
            restore(run, source, t, &content, room);
        }
    }
}

/// Mostly in the range, else next to it or far away: a number that only looks legal in its low byte.
fn argument(source: &mut Source, low: usize, high: usize) -> usize {
    match source.below(24) {
        0 => *source.pick(&[0, high + 1, 256 + low, usize::MAX, 1 << 32 | low]),
        _ => source.within(low, high),
    }
}

fn fragment(run: &mut Run, t: usize, server: usize, content: &[u8], room: usize) {
    let (mut got, mut want) = (vec![FILLER; room], vec![FILLER; room]);
    let answers = (cendrulas::fragment(t, server, content, &mut got), plain::fragment(t, server, content, &mut want));
    run.same(
        || format!("fragment t {t} server {server} of {}, room {room}", hex(content)),
        Seen { answer: answers.0, buffers: &[&got] },
        Seen { answer: answers.1, buffers: &[&want] },
    );
    run.kinds.saw("fragment", emptied(plainly(&answers.0), content.is_empty()));
}

fn restore(run: &mut Run, source: &mut Source, t: usize, content: &[u8], room: usize) {
    let (servers, pieces) = given(source, t, content);
    let n = if source.once_in(20) { argument(source, 0, 1_024) } else { content.len() };
    let (mut got, mut want) = (vec![FILLER; room], vec![FILLER; room]);
    let answers = (
        cendrulas::restore(t, n, &servers, &pieces, &mut got),
        plain::restore(t, n, &servers, &pieces, &mut want),
    );
    run.same(
        || format!("restore t {t} length {n} servers {servers:?} fragments {}, room {room}", hex(&pieces)),
        Seen { answer: answers.0, buffers: &[&got] },
        Seen { answer: answers.1, buffers: &[&want] },
    );
    run.kinds.saw("restore", emptied(plainly(&answers.0), n == 0));
}

/// Servers drawn with repetitions, and a fragment for each: its own, or any bytes, at times one byte too few or too many.
fn given(source: &mut Source, t: usize, content: &[u8]) -> (Vec<usize>, Vec<u8>) {
    let legal = t.clamp(1, 4);
    let f = fragments::fragment_length(legal as u8, content.len());
    let mut all = vec![0; fragments::ALL_FRAGMENTS];
    let right = fragments::make(legal as u8, content, &mut all).is_ok() && !source.once_in(3);
    let (count, bad) = (source.within(legal, 2 * legal + 4), source.once_in(20));
    let (mut servers, mut pieces) = (Vec::new(), Vec::new());
    for _ in 0..count {
        let server = source.within(1, 3 * legal + 1);
        servers.push(server);
        pieces.extend(if right { all[(server - 1) * f..server * f].to_vec() } else { source.bytes(f) });
    }
    if bad {
        servers[count - 1] = *source.pick(&[0, 3 * legal + 2, 255, 257, usize::MAX]);
    }
    match source.below(30) {
        0 => drop(pieces.pop()),
        1 => pieces.push(0),
        _ => {}
    }
    (servers, pieces)
}
