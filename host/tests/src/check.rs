//! What was compared so far, and what a difference prints.

use crate::kinds::Kinds;
use std::fmt::{Debug, Display};
use std::time::Instant;

/// What fills a lent output before a call, so that a byte written past the count is seen.
pub const FILLER: u8 = 0xA5;

pub struct Run {
    inputs: u64,
    begun: Instant,
    pub kinds: Kinds,
}

/// A call as its caller sees it: the answer, and every lent buffer after the call.
pub struct Seen<'a, A> {
    pub answer: A,
    pub buffers: &'a [&'a [u8]],
}

impl Run {
    pub fn new() -> Self {
        Run { inputs: 0, begun: Instant::now(), kinds: Kinds::default() }
    }

    /// How many inputs were compared so far.
    pub fn inputs(&self) -> u64 {
        self.inputs
    }

    /// Runs one group of comparisons and says how many inputs it had; a group of none compares nothing.
    pub fn group(&mut self, name: &str, compare: impl FnOnce(&mut Run)) {
        let before = self.inputs;
        compare(self);
        if self.inputs == before {
            fail(name, "no input");
        }
        println!("{name:<24} {:>8} inputs agree", self.inputs - before);
    }

    /// Counts an input; ends the run if the two differ.
    pub fn same<A: PartialEq + Debug>(&mut self, input: impl Fn() -> String, got: Seen<A>, want: Seen<A>) {
        self.inputs += 1;
        self.also(input, got, want);
    }

    /// A second comparison of the same input.
    pub fn also<A: PartialEq + Debug>(&mut self, input: impl Fn() -> String, got: Seen<A>, want: Seen<A>) {
        if got.answer != want.answer {
            fail(&input(), &format!("got  {:?}\nwant {:?}", got.answer, want.answer));
        }
        for (k, (g, w)) in got.buffers.iter().zip(want.buffers).enumerate() {
            if g != w {
                fail(&input(), &difference(k, g, w));
            }
        }
        assert_eq!(got.buffers.len(), want.buffers.len());
    }

    /// Says which kinds of answers came; ends the run where one is missing.
    pub fn every_kind(&self) {
        if let Err(missing) = self.kinds.end() {
            fail("the kinds of answers", &missing);
        }
    }

    pub fn end(self) {
        println!("{:<24} {:>8} inputs agree, {:.1} s", "all", self.inputs, self.begun.elapsed().as_secs_f64());
    }
}

/// Ends the run where something cannot be put to the library: where it stands, and why.
pub fn stop(place: &dyn Display, why: &dyn Display) -> ! {
    eprintln!("tests: {place}: {why}");
    std::process::exit(1)
}

fn fail(input: &str, difference: &str) -> ! {
    println!("DIFFERS at {input}\n{difference}");
    std::process::exit(1)
}

/// Where two buffers part, with a few bytes of each.
fn difference(k: usize, got: &[u8], want: &[u8]) -> String {
    let at = got.iter().zip(want).position(|(g, w)| g != w).unwrap_or(got.len().min(want.len()));
    let part = |bytes: &[u8]| crate::text::hex(&bytes[at..bytes.len().min(at + 16)]);
    format!("buffer {k} from byte {at}:\ngot  {} of {}\nwant {} of {}", part(got), got.len(), part(want), want.len())
}
