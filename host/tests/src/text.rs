//! The vector files' form: one item a line, its words parted by spaces, bytes in hexadecimal. A line that is not of its form ends the run.

use crate::check::stop;
use std::path::Path;
use std::str::{FromStr, SplitWhitespace};

pub fn hex(bytes: &[u8]) -> String {
    if bytes.is_empty() {
        return "-".into();
    }
    bytes.iter().map(|b| format!("{b:02x}")).collect()
}

fn raw(text: &str) -> Option<Vec<u8>> {
    if text == "-" {
        return Some(Vec::new());
    }
    let digits: Vec<u32> = text.chars().map(|c| c.to_digit(16)).collect::<Option<_>>()?;
    (digits.len() % 2 == 0).then(|| digits.chunks_exact(2).map(|two| (16 * two[0] + two[1]) as u8).collect())
}

/// A line whose words are taken one after the other.
pub struct Line<'a> {
    /// Its file and its number there.
    pub place: String,
    words: SplitWhitespace<'a>,
}

impl<'a> Line<'a> {
    /// Ends the run: what is wrong with this line.
    pub fn stop(&self, what: &str) -> ! {
        stop(&self.place, &what)
    }

    pub fn word(&mut self) -> &'a str {
        self.words.next().unwrap_or_else(|| self.stop("a word is missing at its end"))
    }

    pub fn number<T: FromStr>(&mut self) -> T {
        let word = self.word();
        self.as_number(word)
    }

    pub fn bytes(&mut self) -> Vec<u8> {
        let word = self.word();
        self.as_bytes(word)
    }

    /// Numbers parted by commas; `-` for none.
    pub fn numbers<T: FromStr>(&mut self) -> Vec<T> {
        match self.word() {
            "-" => Vec::new(),
            word => word.split(',').map(|number| self.as_number(number)).collect(),
        }
    }

    pub fn as_number<T: FromStr>(&self, word: &str) -> T {
        word.parse().unwrap_or_else(|_| self.stop(&format!("\"{word}\" is no number that can stand there")))
    }

    pub fn as_bytes(&self, word: &str) -> Vec<u8> {
        raw(word).unwrap_or_else(|| self.stop(&format!("\"{word}\" is not bytes in hexadecimal")))
    }

    /// Passes over a word that always stands here.
    pub fn past(&mut self, due: &str) {
        let word = self.word();
        if word != due {
            self.stop(&format!("\"{due}\" is due where \"{word}\" stands"));
        }
    }

    /// Passes over an argument that can have other values, of which the library has this one.
    pub fn only(&mut self, name: &str, due: &str) {
        let word = self.word();
        if word != due {
            self.stop(&format!("{name} is {word}, and this library has only {due} there"));
        }
    }

    /// The words up to another, which is passed over.
    pub fn up_to(&mut self, end: &str) -> Vec<&'a str> {
        let mut words = Vec::new();
        loop {
            match self.word() {
                word if word == end => return words,
                word => words.push(word),
            }
        }
    }

    /// All words that are left.
    pub fn rest(&mut self) -> Vec<&'a str> {
        self.words.by_ref().collect()
    }

    fn end(&mut self) {
        if let Some(word) = self.words.next() {
            self.stop(&format!("nothing is due where \"{word}\" stands"));
        }
    }
}

/// Hands each line of a file over, without its comments. Each is to be taken to its end.
pub fn each_line(path: &Path, mut take: impl FnMut(&mut Line)) {
    let text = std::fs::read_to_string(path).unwrap_or_else(|e| stop(&path.display(), &e));
    for (k, line) in text.lines().enumerate().filter(|(_, line)| !line.starts_with('#')) {
        let mut line = Line { place: format!("{}:{}", path.display(), k + 1), words: line.split_whitespace() };
        take(&mut line);
        line.end();
    }
}
