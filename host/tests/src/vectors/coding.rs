//! Fragments, restoring and its weights.

use super::{due, filled, servers, shelf, table};
use crate::check::{Run, Seen, FILLER};
use crate::text::{each_line, Line};
use cendrulas::{weight_rows, Answer, ROWS_ROOM, USED_ROOM};
use std::path::Path;

/// A content is refused for every server, or has a fragment for each.
pub fn fragments(run: &mut Run, path: &Path) {
    each_line(path, |line| {
        line.past("F");
        let t = shelf(line);
        table(line, t);
        let content = line.bytes();
        line.past("=");
        let code: u8 = line.number();
        for server in 1..=servers(t) {
            let fragment = if code == 0 { line.bytes() } else { Vec::new() };
            let mut out = vec![FILLER; 512];
            let answer = cendrulas::fragment(t, server, &content, &mut out);
            let left = filled(&fragment, out.len());
            let want = if code == 0 { Answer::wrote(fragment.len()) } else { Answer::refused(code) };
            run.same(
                || format!("{} server {server}", line.place),
                Seen { answer, buffers: &[&out] },
                Seen { answer: want, buffers: &[&left] },
            );
        }
    });
}

pub fn restore(run: &mut Run, path: &Path) {
    each_line(path, |line| {
        line.past("X");
        let t = shelf(line);
        table(line, t);
        let (length, room) = (line.number(), line.number());
        let (mut servers, mut fragments): (Vec<usize>, Vec<u8>) = (Vec::new(), Vec::new());
        for word in line.up_to("=") {
            let Some((server, fragment)) = word.split_once(':') else { line.stop(&format!("\"{word}\" is not BOX:FRAGMENT")) };
            servers.push(line.as_number(server));
            fragments.extend(line.as_bytes(fragment));
        }
        let mut out = vec![FILLER; room];
        let answer = cendrulas::restore(t, length, &servers, &fragments, &mut out);
        due(run, line, answer, &out);
    });
}

pub fn weights(run: &mut Run, path: &Path) {
    each_line(path, |line| {
        line.past("E");
        let t = shelf(line);
        table(line, t);
        let servers: Vec<usize> = line.numbers();
        line.past("=");
        let (mut used, mut rows) = ([FILLER; USED_ROOM + 1], [FILLER; ROWS_ROOM + 1]);
        let answer = weight_rows(t, &servers, &mut used, &mut rows);
        let (want, due_used, due_rows) = weights_due(line, t);
        run.same(
            || line.place.clone(),
            Seen { answer, buffers: &[&used, &rows] },
            Seen { answer: want, buffers: &[&filled(&due_used, used.len()), &filled(&due_rows, rows.len())] },
        );
    });
}

/// The answer, the servers used and all rows.
fn weights_due(line: &mut Line, t: usize) -> (Answer, Vec<u8>, Vec<u8>) {
    let code: u8 = line.number();
    if code != 0 {
        return (Answer::refused(code), Vec::new(), Vec::new());
    }
    let (used, rows): (Vec<u8>, Vec<Vec<u8>>) = (line.numbers(), (0..=t).map(|_| line.bytes()).collect());
    if rows.iter().any(|row| row.len() != t + 1) {
        line.stop("a row has K weights");
    }
    (Answer::wrote(used.len()), used, rows.concat())
}
