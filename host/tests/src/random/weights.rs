//! Weights of servers in any order, repeated, too few or out of range; restoring by them and by other rows; and both together, which is restoring.

use super::source::Source;
use crate::check::{Run, Seen, FILLER};
use crate::kinds::{emptied, kind, plainly};
use crate::plain;
use crate::text::hex;
use cendrulas::{Answer, CONTENT_ROOM, ROWS_ROOM, USED_ROOM};
use shelf::fragments::fragment_length;

pub fn all(run: &mut Run, source: &mut Source, inputs: usize) {
    for k in 0..inputs {
        // once in so many times an argument is wrong; where half of them are, the order of refusals is seen
        let faults = if source.once_in(4) { 2 } else { 20 };
        match k % 3 {
            0 => weights(run, source, faults),
            1 => restore_weighed(run, source, faults),
            _ => in_two_calls(run, source, faults),
        }
    }
}

/// A number from 1 to the highest; once in so many times next to them or far away, where it only looks legal in its low bytes.
fn argument(source: &mut Source, faults: usize, high: usize) -> usize {
    if source.once_in(faults) {
        *source.pick(&[0, high + 1, 256 + high, 1 << 32 | 1, usize::MAX])
    } else {
        source.within(1, high)
    }
}

/// The length of a buffer for so many bytes; once in so many times too short.
fn room(source: &mut Source, faults: usize, bytes: usize) -> usize {
    if source.once_in(faults) {
        *source.pick(&[0, bytes / 2, bytes - 1])
    } else {
        source.within(bytes, bytes + 8)
    }
}

/// From none to many, each as often as it comes; once in so many times one of them is out of range.
fn servers(source: &mut Source, faults: usize, t: usize) -> Vec<usize> {
    let top = 3 * t.clamp(1, 4) + 1;
    let count = if source.once_in(50) { 500 } else { source.within(0, 2 * top) };
    let mut servers: Vec<usize> = (0..count).map(|_| source.within(1, top)).collect();
    if count > 0 && source.once_in(faults) {
        let at = source.below(count);
        servers[at] = argument(source, 1, top);
    }
    servers
}

fn weights(run: &mut Run, source: &mut Source, faults: usize) {
    let t = argument(source, faults, 4);
    let servers = servers(source, faults, t);
    let (mut used, mut rows) = (vec![FILLER; room(source, faults, USED_ROOM)], vec![FILLER; room(source, faults, ROWS_ROOM)]);
    let (mut plain_used, mut plain_rows) = (used.clone(), rows.clone());
    let answer = cendrulas::weight_rows(t, &servers, &mut used, &mut rows);
    let plain = plain::weight_rows(t, &servers, &mut plain_used, &mut plain_rows);
    run.same(
        || format!("weights t {t} servers {servers:?}, rooms {} and {}", used.len(), rows.len()),
        Seen { answer, buffers: &[&used, &rows] },
        Seen { answer: plain, buffers: &[&plain_used, &plain_rows] },
    );
    let as_given = |k: usize| servers[..k].iter().zip(&used).all(|(&server, &used)| server == usize::from(used));
    let accepted = || if as_given(answer.count) { "accepted" } else { "accepted after a repetition" }.into();
    run.kinds.saw("weights", kind(&answer, accepted));
}

/// By rows of weights, or by any bytes.
fn restore_weighed(run: &mut Run, source: &mut Source, faults: usize) {
    let t = argument(source, faults, 4);
    let n = if source.once_in(faults) { *source.pick(&[1_025, 1 << 16 | 1, 1 << 32 | 1, usize::MAX]) } else { source.content_length() };
    let (length, room) = (room(source, faults, ROWS_ROOM), room(source, faults, CONTENT_ROOM));
    let mut rows = source.bytes(length);
    let own = source.once_in(2) && {
        let servers = servers(source, faults, t);
        cendrulas::weight_rows(t, &servers, &mut [0; USED_ROOM], &mut rows).refusal == 0
    };
    let fragments = fragments(source, faults, t, n);
    let (mut got, mut want) = (vec![FILLER; room], vec![FILLER; room]);
    let answer = cendrulas::restore_weighed(t, n, &rows, &fragments, &mut got);
    let plain = plain::restore_weighed(t, n, &rows, &fragments, &mut want);
    run.same(
        || format!("restore t {t} length {n} by rows {} of fragments {}, room {room}", hex(&rows), hex(&fragments)),
        Seen { answer, buffers: &[&got] },
        Seen { answer: plain, buffers: &[&want] },
    );
    let accepted = if own { "accepted" } else { "accepted with other rows" };
    run.kinds.saw("restore by weights", emptied(kind(&answer, || accepted.into()), n == 0));
}

/// Any bytes as t+1 fragments, once in so many times of a wrong length.
fn fragments(source: &mut Source, faults: usize, t: usize, n: usize) -> Vec<u8> {
    let t = t.clamp(1, 4);
    let f = fragment_length(t as u8, n.min(CONTENT_ROOM));
    let right = (t + 1) * f;
    let length = if source.once_in(faults) { *source.pick(&[right.saturating_sub(1), right + 1, t * f, right + f]) } else { right };
    source.bytes(length)
}

/// Weights, and then restoring by them from the first fragment of each server used, is restoring from all that were given.
fn in_two_calls(run: &mut Run, source: &mut Source, faults: usize) {
    let t = argument(source, faults, 4);
    let (servers, n) = (servers(source, faults, t), source.content_length());
    let f = fragment_length(t.clamp(1, 4) as u8, n);
    let given = source.bytes(servers.len() * f);
    let (mut got, mut want) = ([FILLER; CONTENT_ROOM], [FILLER; CONTENT_ROOM]);
    let weighed = cendrulas::weights(t, &servers).and_then(|weights| {
        let first = |used: &u8| servers.iter().position(|&server| server == usize::from(*used)).expect("it was given");
        let fragments: Vec<u8> = weights.used().iter().map(first).flat_map(|at| &given[at * f..][..f]).copied().collect();
        weights.restore(n, &fragments, &mut got)
    });
    let answer = weighed.map_or_else(|refusal| Answer::refused(refusal.number()), Answer::wrote);
    let restored = cendrulas::restore(t, n, &servers, &given, &mut want);
    run.same(
        || format!("restore by weights or in one call, t {t} length {n} servers {servers:?} fragments {}", hex(&given)),
        Seen { answer, buffers: &[&got] },
        Seen { answer: restored, buffers: &[&want] },
    );
    run.kinds.saw("restore in two calls", emptied(plainly(&answer), n == 0));
}
