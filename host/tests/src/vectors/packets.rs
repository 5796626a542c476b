//! The layout of packets.

use crate::check::{Run, Seen};
use crate::text::each_line;
use cendrulas::{packet_check, Answer};
use std::path::Path;

pub fn packets(run: &mut Run, path: &Path) {
    each_line(path, |line| {
        line.past("D");
        let answer = packet_check(&line.bytes());
        line.past("=");
        let want = Answer::refused(line.number());
        run.same(|| line.place.clone(), Seen { answer, buffers: &[] }, Seen { answer: want, buffers: &[] });
    });
}
