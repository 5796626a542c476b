//! The digest and the tag through the stamps and candidates of tags.txt.

use super::filled;
use crate::check::{Run, Seen, FILLER};
use crate::text::each_line;
use cendrulas::{Answer, DIGEST, TAG};
use std::path::Path;

pub fn tags(run: &mut Run, path: &Path) {
    each_line(path, |line| {
        // the key, what stands before the tag in what is due, and the rest of the message
        let (key, front, rest) = match line.word() {
            "S" => ([0xFF; 32], [&line.number::<u32>().to_be_bytes()[..], &[line.number()]].concat(), Vec::new()),
            "C" => ([line.number(); 32], Vec::new(), [line.bytes(), nonce_digest(&line.bytes())].concat()),
            _ => line.stop("it begins with neither S nor C"),
        };
        line.past("=");
        let mut out = vec![FILLER; TAG + 8];
        let answer = cendrulas::tag(&key, &[&front[..], &rest].concat(), &mut out);
        let got = [front, out].concat();
        let left = filled(&line.bytes(), got.len());
        run.same(
            || line.place.clone(),
            Seen { answer, buffers: &[&got] },
            Seen { answer: Answer::wrote(TAG), buffers: &[&left] },
        );
    });
}

fn nonce_digest(nonce: &[u8]) -> Vec<u8> {
    let mut out = vec![0; DIGEST];
    cendrulas::digest(nonce, &mut out);
    out
}
