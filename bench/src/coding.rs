//! All fragments of a content, and restoring it from fragments that are none of its own runs: in one call, and in its two halves.

use crate::content;
use crate::table::Table;
use cendrulas::{ROWS_ROOM, USED_ROOM};
use shelf::{boxes_of, fragments};
use std::hint::black_box;

const LENGTH: usize = 1_024;

pub fn rows(table: &mut Table) {
    for row in [make, restore, weights, restore_weighed] {
        for t in [1, 4] {
            row(table, t);
        }
    }
}

fn make(table: &mut Table, t: u8) {
    let data = content(LENGTH);
    let servers = boxes_of(t);
    let mut out = [0; 512];
    let mut all = [0; fragments::ALL_FRAGMENTS];
    table.row(
        &format!("all {servers} fragments of 1,024 bytes, t = {t}"),
        || {
            for server in 1..=servers {
                black_box(cendrulas::fragment(t.into(), server, black_box(&data), black_box(&mut out)));
            }
        },
        || fragments::make(t, black_box(&data), black_box(&mut all)),
    );
}

/// The last t+1 servers, and their fragments of a content, one after the other.
fn parity(t: u8, data: &[u8]) -> (Vec<usize>, Vec<u8>) {
    let mut all = [0; fragments::ALL_FRAGMENTS];
    let f = fragments::make(t, data, &mut all).expect("a legal content");
    let (first, last) = (boxes_of(t) - t as usize, boxes_of(t));
    ((first..=last).collect(), all[(first - 1) * f..last * f].to_vec())
}

/// The same servers as the plain shelf takes them.
fn boxes(servers: &[usize]) -> Vec<u8> {
    servers.iter().map(|&server| server as u8).collect()
}

fn restore(table: &mut Table, t: u8) {
    let data = content(LENGTH);
    let (servers, flat) = parity(t, &data);
    let f = fragments::fragment_length(t, LENGTH);
    let given: Vec<(u8, &[u8])> = boxes(&servers).into_iter().zip(flat.chunks_exact(f)).collect();
    let (mut out, mut plain_out) = ([0; LENGTH], [0; LENGTH]);
    table.row(
        &format!("1,024 bytes from {} parity fragments, t = {t}", servers.len()),
        || cendrulas::restore(t.into(), LENGTH, black_box(&servers), black_box(&flat), black_box(&mut out)),
        || fragments::restore(t, LENGTH, black_box(&given), black_box(&mut plain_out)),
    );
    assert!(out[..] == data[..] && plain_out[..] == data[..]);
}

fn weights(table: &mut Table, t: u8) {
    let (servers, _) = parity(t, &content(LENGTH));
    let boxes = boxes(&servers);
    let (mut used, mut rows) = ([0; USED_ROOM], [0; ROWS_ROOM]);
    table.row(
        &format!("weights of {} servers without a plain run, t = {t}", servers.len()),
        || cendrulas::weight_rows(t.into(), black_box(&servers), black_box(&mut used), black_box(&mut rows)),
        || fragments::weights(t, black_box(&boxes)),
    );
    let plain = fragments::weights(t, &boxes).expect("enough boxes");
    assert!(used == plain.boxes && rows.chunks(boxes.len()).zip(plain.rows).all(|(row, plain)| row == &plain[..row.len()]));
}

fn restore_weighed(table: &mut Table, t: u8) {
    let data = content(LENGTH);
    let (servers, flat) = parity(t, &data);
    let given: Vec<&[u8]> = flat.chunks_exact(fragments::fragment_length(t, LENGTH)).collect();
    let plain = fragments::weights(t, &boxes(&servers)).expect("enough boxes");
    let mut rows = [0; ROWS_ROOM];
    cendrulas::weight_rows(t.into(), &servers, &mut [0; USED_ROOM], &mut rows);
    let (mut out, mut plain_out) = ([0; LENGTH], [0; LENGTH]);
    table.row(
        &format!("1,024 bytes from {} parity fragments, weights at hand, t = {t}", servers.len()),
        || cendrulas::restore_weighed(t.into(), LENGTH, black_box(&rows), black_box(&flat), black_box(&mut out)),
        || fragments::restore_weighed(t, LENGTH, black_box(&plain.rows), black_box(&given), black_box(&mut plain_out)),
    );
    assert!(out[..] == data[..] && plain_out[..] == data[..]);
}
