use super::{answer, narrow, WRONG_SIZE};
use cendrulas::{Answer, ROWS_ROOM, USED_ROOM};
use shelf::fragments::{self, Weights, ALL_FRAGMENTS};
use shelf::{boxes_of, Refusal};

/// The longest fragment: of 1,024 bytes at t = 1. The library asks for so much output, whatever is to be written.
const FRAGMENT_OUTPUT: usize = 512;

pub fn fragment(t: usize, server: usize, content: &[u8], out: &mut [u8]) -> Answer {
    if out.len() < FRAGMENT_OUTPUT {
        return Answer::refused(WRONG_SIZE);
    }
    answer(one_fragment(narrow(t), narrow(server), content, out))
}

fn one_fragment(t: u8, server: u8, content: &[u8], out: &mut [u8]) -> Result<usize, Refusal> {
    if !(1..=4).contains(&t) {
        return Err(Refusal::BadT);
    }
    if server == 0 || server as usize > boxes_of(t) {
        return Err(Refusal::BadBox);
    }
    let mut all = [0; ALL_FRAGMENTS];
    let f = fragments::make(t, content, &mut all)?;
    out[..f].copy_from_slice(&all[(server as usize - 1) * f..][..f]);
    Ok(f)
}

pub fn restore(t: usize, length: usize, servers: &[usize], fragments: &[u8], out: &mut [u8]) -> Answer {
    let t = narrow(t);
    let f = if (1..=4).contains(&t) { fragments::fragment_length(t, length) } else { 0 };
    // fragments of another length in all are as many of a wrong length
    let fits = f.checked_mul(servers.len()) == Some(fragments.len());
    let wrong = if f == 0 { &[0][..] } else { &[] };
    let piece = |k: usize| if fits { &fragments[k * f..(k + 1) * f] } else { wrong };
    let given: Vec<(u8, &[u8])> = servers.iter().enumerate().map(|(k, &server)| (narrow(server), piece(k))).collect();
    answer(fragments::restore(t, length, &given, out))
}

pub fn weight_rows(t: usize, servers: &[usize], used: &mut [u8], rows: &mut [u8]) -> Answer {
    if used.len() < USED_ROOM || rows.len() < ROWS_ROOM {
        return Answer::refused(WRONG_SIZE);
    }
    let boxes: Vec<u8> = servers.iter().map(|&server| narrow(server)).collect();
    let found = fragments::weights(narrow(t), &boxes);
    answer(found.map(|found| put(&found, t + 1, used, rows)))
}

/// The first k boxes, and of the first k rows as many weights.
fn put(found: &Weights, k: usize, used: &mut [u8], rows: &mut [u8]) -> usize {
    used[..k].copy_from_slice(&found.boxes[..k]);
    for (flat, row) in rows.chunks_exact_mut(k).zip(&found.rows[..k]) {
        flat.copy_from_slice(&row[..k]);
    }
    k
}

pub fn restore_weighed(t: usize, length: usize, rows: &[u8], fragments: &[u8], out: &mut [u8]) -> Answer {
    if rows.len() < ROWS_ROOM {
        return Answer::refused(WRONG_SIZE);
    }
    let t = narrow(t);
    let k = usize::from(t.min(4)) + 1;
    let mut table = [[0; 5]; 5];
    for (row, flat) in table.iter_mut().zip(rows.chunks_exact(k)) {
        row[..k].copy_from_slice(flat);
    }
    // fragments of another length in all are none at all
    let f = fragments::fragment_length(t, length);
    let count = if f.checked_mul(k) == Some(fragments.len()) { k } else { 0 };
    let given: Vec<&[u8]> = (0..count).map(|j| &fragments[j * f..(j + 1) * f]).collect();
    answer(fragments::restore_weighed(t, length, &table, &given, out))
}
