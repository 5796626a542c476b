//! Digest and tag. Both sides get the raw key and make both pads anew.

use crate::content;
use crate::table::Table;
use cendrulas::{DIGEST, TAG};
use shelf::stamp::TAGGED;
use shelf::{hmac, sha256};
use std::hint::black_box;

pub fn rows(table: &mut Table) {
    let data = content(1_024);
    for (name, n) in [("digest of 64 bytes", 64), ("digest of 1,024 bytes", 1_024)] {
        let message = &data[..n];
        let mut out = [0; DIGEST];
        table.row(
            name,
            || cendrulas::digest(black_box(message), black_box(&mut out)),
            || sha256::digest(black_box(message)),
        );
    }
    let (key, message) = ([7; 32], &data[..TAGGED]);
    let mut out = [0; TAG];
    table.row(
        &format!("tag of {TAGGED} bytes"),
        || cendrulas::tag(black_box(&key), black_box(message), black_box(&mut out)),
        || hmac::tag(black_box(&key), black_box(message)),
    );
}
