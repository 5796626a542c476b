//! Folders of vectors, in the form of examples/README.md: ours, and any others that are to be put to the library.

use crate::check::{stop, Run, Seen, FILLER};
use crate::text::Line;
use cendrulas::Answer;
use std::path::Path;

mod client;
mod coding;
mod packets;
mod planner;
mod server;
mod sheets;
mod tags;

pub use client::{drill_keys, lent_to};

/// What a folder may hold, with the tests of each.
const PARTS: [(&str, fn(&mut Run, &Path)); 10] = [
    ("tags.txt", tags::tags),
    ("fragments.txt", coding::fragments),
    ("restore.txt", coding::restore),
    ("weights.txt", coding::weights),
    ("packets.txt", packets::packets),
    ("boxcheck.txt", server::memories),
    ("boxes.txt", server::steps),
    ("clients.txt", client::clients),
    ("planner.txt", planner::plans),
    ("drill", sheets::sheets),
];

/// Puts all that a folder holds to the library. A part that has no test is not passed over: its vectors would count as tried.
pub fn all(run: &mut Run, folder: &Path) {
    let held = names(folder);
    for name in &held {
        let path = folder.join(name);
        let is_part = path.is_dir() || name.ends_with(".txt");
        if is_part && !PARTS.iter().any(|(part, _)| part == name) {
            stop(&path.display(), &"this program has no test for it");
        }
    }
    let parts: Vec<_> = PARTS.iter().filter(|(part, _)| held.iter().any(|name| name == part)).collect();
    if parts.is_empty() {
        stop(&folder.display(), &"it holds nothing to test");
    }
    println!("{}", folder.display());
    for (part, test) in parts {
        run.group(part, |run| test(run, &folder.join(part)));
    }
}

/// The names in a folder, in their order.
fn names(folder: &Path) -> Vec<String> {
    let entries = std::fs::read_dir(folder).and_then(Iterator::collect::<Result<Vec<_>, _>>);
    let entries = entries.unwrap_or_else(|e| stop(&folder.display(), &e));
    let mut names: Vec<String> = entries.iter().map(|entry| entry.file_name().to_string_lossy().into_owned()).collect();
    names.sort();
    names
}

/// T with its S and K; the library has those that follow from T.
fn shelf(line: &mut Line) -> usize {
    let t: usize = line.number();
    line.only("S", &servers(t).to_string());
    line.only("K", &t.saturating_add(1).to_string());
    t
}

fn servers(t: usize) -> usize {
    t.saturating_mul(3).saturating_add(1)
}

/// The points of servers 1 to S.
fn table(line: &mut Line, t: usize) {
    let points = line.bytes();
    let own = points.len() == servers(t) && points.iter().enumerate().all(|(i, &point)| usize::from(point) == i + 1);
    if !own {
        line.stop("this library has only the points 1 to S, and TABLE has others");
    }
}

/// Compares what an operation answered and left in its output with a line's `CODE [BYTES]`.
fn due(run: &mut Run, line: &mut Line, answer: Answer, out: &[u8]) {
    let code: u8 = line.number();
    let bytes = if code == 0 { line.bytes() } else { Vec::new() };
    let want = if code == 0 { Answer::wrote(bytes.len()) } else { Answer::refused(code) };
    let left = filled(&bytes, out.len());
    run.same(|| line.place.clone(), Seen { answer, buffers: &[out] }, Seen { answer: want, buffers: &[&left] });
}

/// An output of a length after a call that wrote these bytes.
fn filled(bytes: &[u8], length: usize) -> Vec<u8> {
    let mut out = bytes.to_vec();
    out.resize(length.max(bytes.len()), FILLER);
    out
}
