//! Plans of labs.

use super::shelf;
use crate::check::{Run, Seen};
use crate::plans::UNWRITTEN;
use crate::text::{each_line, Line};
use cendrulas::{plan_numbers, Answer, PLAN};
use std::path::Path;

/// Where the numbers of a line stand in a plan, part by part in the line's order: the kinds that have one length, filters, replies to a filter,
/// numbers of packets, memory. A line has filters up to S only.
const PLACES: [&[usize]; 5] =
    [&[1, 2, 3, 4, 5, 6, 7, 8, 11, 12], &[13, 14, 15, 16, 17, 18, 19, 20, 21, 22, 23, 24, 25, 26], &[27, 28], &[29, 30, 31, 32, 33, 34], &[35]];

pub fn plans(run: &mut Run, path: &Path) {
    each_line(path, |line| {
        line.past("L");
        let t = shelf(line);
        let (length, readers, stores) = (line.number(), line.number(), line.number());
        line.past("=");
        let mut numbers = [UNWRITTEN; PLAN + 1];
        let answer = plan_numbers(t, length, readers, stores, &mut numbers);
        let want = due(line, t);
        run.same(|| line.place.clone(), Seen { answer: (answer, numbers), buffers: &[] }, Seen { answer: want, buffers: &[] });
    });
}

/// The answer, and what it leaves in an output with room for one number more.
fn due(line: &mut Line, t: usize) -> (Answer, [usize; PLAN + 1]) {
    let mut numbers = [UNWRITTEN; PLAN + 1];
    let code: u8 = line.number();
    if code != 0 {
        return (Answer::refused(code), numbers);
    }
    numbers[..PLAN].fill(0);
    let words = line.rest();
    let parts: Vec<&[&str]> = words.split(|word| *word == "|").collect();
    let counts: Vec<usize> = parts.iter().map(|part| part.len()).collect();
    if counts != [10, super::servers(t) + 1, 2, 6, 1] {
        line.stop("a plan has 10 | S + 1 | 2 | 6 | 1 numbers");
    }
    for (part, places) in parts.iter().zip(PLACES) {
        for (word, place) in part.iter().zip(places) {
            numbers[*place] = line.as_number(word);
        }
    }
    (Answer::wrote(PLAN), numbers)
}
