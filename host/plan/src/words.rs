//! The words after the program's name. The library decides what is in range; here its refusal is told of the word that it means.

use crate::figures::Lab;
use cendrulas::Refusal;

const USAGE: &str = "usage: plan [--csv] T LENGTH READERS STORES, or --help";

/// The four words, each with its range and the library's refusal where it is outside.
const WORDS: [(&str, &str, Refusal); 4] = [
    ("T", "1 to 4", Refusal::T),
    ("LENGTH", "0 to 1024", Refusal::ContentLength),
    ("READERS", "1 to 16", Refusal::Client),
    ("STORES", "0 to 32", Refusal::Stores),
];

pub enum Asked {
    Help,
    Plan { lab: Lab, csv: bool },
}

pub fn asked(words: &[String]) -> Result<Asked, String> {
    if let [word] = words {
        if word == "--help" || word == "-h" {
            return Ok(Asked::Help);
        }
    }
    let (options, numbers): (Vec<&String>, Vec<&String>) = words.iter().partition(|word| word.starts_with("--"));
    if let Some(option) = options.iter().find(|option| **option != "--csv") {
        return Err(format!("\"{option}\" is no option\n{USAGE}"));
    }
    if numbers.len() != WORDS.len() {
        return Err(format!("T, LENGTH, READERS and STORES are due, and the words given are {}\n{USAGE}", numbers.len()));
    }
    let mut parsed = [0; WORDS.len()];
    for (at, word) in numbers.iter().enumerate() {
        parsed[at] = number(word).ok_or_else(|| wrong(at, word))?;
    }
    let [t, length, readers, stores] = parsed;
    Ok(Asked::Plan { lab: Lab { t, length, readers, stores }, csv: !options.is_empty() })
}

/// A whole number in digits alone.
fn number(word: &str) -> Option<usize> {
    word.bytes().all(|byte| byte.is_ascii_digit()).then(|| word.parse().ok())?
}

fn wrong(at: usize, word: &str) -> String {
    format!("{} is a whole number from {}, and not \"{word}\"", WORDS[at].0, WORDS[at].1)
}

/// The word that the library has refused, with its words for it.
pub fn refused(lab: &Lab, refusal: Refusal) -> String {
    let given = [lab.t, lab.length, lab.readers, lab.stores];
    match WORDS.iter().position(|(_, _, meant)| *meant == refusal) {
        Some(at) => format!("{}; refusal {}: {}", wrong(at, &given[at].to_string()), refusal.number(), refusal.name()),
        None => format!("the plan is refused: {refusal}"),
    }
}
