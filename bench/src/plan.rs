//! The plan of a lab, at the most boxes.

use crate::table::Table;
use shelf::plan::{plan, PLAN};
use std::hint::black_box;

pub fn rows(table: &mut Table) {
    let (mut ours, mut plain) = ([0; PLAN], [0; PLAN]);
    table.row(
        "plan of a lab, t = 4",
        || cendrulas::plan_numbers(black_box(4), black_box(1_024), black_box(16), black_box(32), black_box(&mut ours)),
        || plan(black_box(4), black_box(1_024), black_box(16), black_box(32), black_box(&mut plain)),
    );
    assert!(ours == plain, "the plans differ");
}
