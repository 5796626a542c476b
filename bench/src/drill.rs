//! Drill lines, on sheets of growing length.

use crate::grouped;
use crate::table::{timed, Table};
use shelf::drill::{output_size, LISTING_LINE};
use shelf::WORK_AREA;
use std::hint::black_box;

pub fn rows(table: &mut Table) {
    for lines in [1_000, 10_000, 100_000] {
        row(table, lines);
    }
}

/// A line of a sheet with so many.
pub fn row(table: &mut Table, lines: usize) {
    let (sheet, name) = (sheet(lines), grouped(lines));
    let (mut out, mut plain_out) = (vec![0; output_size(&sheet)], vec![0; output_size(&sheet)]);
    let (mut work, mut plain_work) = (vec![0; WORK_AREA], vec![0; WORK_AREA]);
    table.batches(
        &format!("drill, a line of {name}, t = 1"),
        lines,
        || timed(|| assert_eq!(cendrulas::drill(black_box(&sheet), &mut out, &mut work).count, (lines - 1) * LISTING_LINE)),
        || timed(|| assert!(shelf::drill::drill(black_box(&sheet), &mut plain_out, &mut plain_work).is_ok())),
    );
    assert!(out == plain_out, "the listings of {name} lines differ");
}

/// Writes until the servers are full, a read after each; then reads only.
fn sheet(lines: usize) -> Vec<u8> {
    let mut sheet = line(0, 1, 0, 0, 0);
    let mut begun = 0;
    while sheet.len() < lines * 41 {
        if begun < 32 {
            sheet.extend(line(1, 1 + begun % 8, 0, 1_024 - begun, begun));
            visits(&mut sheet, 1 + begun % 8, 3);
        }
        begun += 1;
        sheet.extend(line(2, 9, 0, 0, 0));
        visits(&mut sheet, 9, 2);
    }
    sheet.truncate(lines * 41);
    sheet
}

/// Rounds of visits to the 2t+1 servers that end a round.
fn visits(sheet: &mut Vec<u8>, client: usize, rounds: usize) {
    for _ in 0..rounds {
        (1..=3).for_each(|server| sheet.extend(line(3, client, server, 0, 0)));
    }
}

fn line(verb: usize, client: usize, server: usize, length: usize, fill: usize) -> Vec<u8> {
    format!("{verb:>8}{client:>8}{server:>8}{length:>8}{fill:>8}\n").into_bytes()
}
