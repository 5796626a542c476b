//! How the cost of operations grows with what they work on: lines, held writes, candidates, t and the record's length.

use crate::server::Writes;
use crate::table::{heads, Cost, Table};
use crate::{calls, drill, grouped, server};

/// The cost of one operation at some sizes.
pub struct Series {
    pub title: &'static str,
    /// What the sizes count.
    pub unit: &'static str,
    pub points: Vec<(usize, Cost)>,
}

/// From none to all of what a history holds; the last store that finds room comes to 31.
const HELD: [usize; 5] = [0, 8, 16, 24, 31];
const KEPT: [usize; 5] = [1, 8, 16, 24, 32];
const LISTS: [usize; 5] = [0, 1, 4, 8, 13];
const FAULTS: [usize; 4] = [1, 2, 3, 4];
const LENGTHS: [usize; 5] = [0, 1, 64, 512, 1_024];

/// Measures all of it, and prints a small table for each.
pub fn tables() -> Vec<Series> {
    let mut all = vec![series("drill: a line, t = 1", "lines", &[1_000, 10_000, 100_000], drill::row)];
    all.extend(of_server(&Writes::new(4)));
    all.extend(of_calls());
    all
}

fn of_server(writes: &Writes) -> [Series; 4] {
    [
        series("store step, t = 4", "held writes", &HELD, |table, held| server::store(table, writes, held)),
        series("filter, 1 candidate held, t = 4", "held writes", &KEPT, |table, held| server::filter_latest(table, writes, held)),
        series("filter, right by tag, t = 4", "candidates", &LISTS, |table, n| server::filter_tagged(table, writes, n)),
        series("filter, forged, 32 held, t = 4", "candidates", &LISTS, |table, n| server::filter_forged(table, writes, n)),
    ]
}

fn of_calls() -> [Series; 6] {
    [
        series("whole write of 1,024 bytes", "t", &FAULTS, |table, t| calls::write(table, t as u8, 1_024)),
        series("whole write, t = 1", "bytes", &LENGTHS, |table, length| calls::write(table, 1, length)),
        series("whole write, t = 4", "bytes", &LENGTHS, |table, length| calls::write(table, 4, length)),
        series("whole read of 1,024 bytes", "t", &FAULTS, |table, t| calls::read(table, t as u8, 1_024)),
        series("whole read, t = 1", "bytes", &LENGTHS, |table, length| calls::read(table, 1, length)),
        series("whole read, t = 4", "bytes", &LENGTHS, |table, length| calls::read(table, 4, length)),
    ]
}

/// Measures one row at each size.
fn series(title: &'static str, unit: &'static str, sizes: &[usize], row: impl Fn(&mut Table, usize)) -> Series {
    println!("\n{title}\n{unit:>12} {}", heads());
    let mut points = Vec::new();
    for &size in sizes {
        let mut table = Table::kept();
        row(&mut table, size);
        let cost = table.costs()[0];
        println!("{:>12} {}", grouped(size), cost.columns());
        points.push((size, cost));
    }
    Series { title, unit, points }
}
