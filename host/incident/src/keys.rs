//! Key files, one to a party, in lines of words:
//!
//! ```text
//! cendrulas box              cendrulas scope
//! t 1                        t 1
//! number 4                   number 1
//! key HEX                    writers HEX        scopes 1 to 8 only
//! link SCOPE HEX ..          key BOX HEX ..     scopes 1 to 8 only
//!                            link BOX HEX ..
//! ```
//!
//! `key` is a box's key, `writers` the writers' key (document 01), `link` the key of the link with a scope or a box (link.rs).

use crate::link::{Key, KEY};
use crate::words::hex;
use crate::{random, servers, words, CLIENTS, WRITERS};
use cendrulas::{Keys, SERVER_KEYS};
use std::fmt::Write;
use std::path::Path;

/// What a box holds.
pub struct BoxKeys {
    pub t: usize,
    pub number: usize,
    pub key: Key,
    links: Vec<Key>,
}

/// What a scope holds. Scopes 9 to 16 lend 00h in the place of keys.
#[derive(Clone)]
pub struct ScopeKeys {
    pub t: usize,
    pub number: usize,
    pub lent: Keys,
    links: Vec<Key>,
}

impl BoxKeys {
    pub fn link(&self, scope: usize) -> Option<Key> {
        self.links.get(scope.wrapping_sub(1)).copied()
    }

    pub fn read(path: &Path) -> Result<Self, String> {
        let mut file = KeyFile::open(path, "box")?;
        let t = file.number("t", 4)?;
        let number = file.number("number", servers(t))?;
        let key = file.key("key")?;
        let links = (1..=CLIENTS).map(|scope| file.key(&format!("link {scope}"))).collect::<Result<_, _>>()?;
        file.end(BoxKeys { t, number, key, links })
    }
}

impl ScopeKeys {
    pub fn link(&self, server: usize) -> Option<Key> {
        self.links.get(server.wrapping_sub(1)).copied()
    }

    pub fn read(path: &Path) -> Result<Self, String> {
        let mut file = KeyFile::open(path, "scope")?;
        let t = file.number("t", 4)?;
        let number = file.number("number", CLIENTS)?;
        let mut lent = Keys { writers: [0; KEY], servers: [0; SERVER_KEYS] };
        if number <= WRITERS {
            lent.writers = file.key("writers")?;
            for (k, place) in lent.servers.chunks_exact_mut(KEY).take(servers(t)).enumerate() {
                place.copy_from_slice(&file.key(&format!("key {}", k + 1))?);
            }
        }
        let links = (1..=servers(t)).map(|server| file.key(&format!("link {server}"))).collect::<Result<_, _>>()?;
        file.end(ScopeKeys { t, number, lent, links })
    }
}

/// The lines of a key file that are still to be read. Errors say the line, and never a key.
struct KeyFile {
    name: String,
    lines: Vec<String>,
    next: usize,
}

impl KeyFile {
    fn open(path: &Path, party: &str) -> Result<Self, String> {
        let name = path.display().to_string();
        let text = std::fs::read_to_string(path).map_err(|e| format!("{name}: {e}"))?;
        let mut file = KeyFile { name, lines: text.lines().map(str::to_owned).collect(), next: 0 };
        match file.line("cendrulas")? == party {
            true => Ok(file),
            false => Err(format!("{}: it is not the key file of a {party}", file.name)),
        }
    }

    /// What stands after the word or words that the next line must begin with.
    fn line(&mut self, begin: &str) -> Result<String, String> {
        let rest = self.lines.get(self.next).and_then(|line| line.strip_prefix(begin)?.strip_prefix(' ')).map(str::to_owned);
        self.next += 1;
        rest.ok_or_else(|| format!("{}: line {} must begin with \"{begin}\"", self.name, self.next))
    }

    fn number(&mut self, what: &str, high: usize) -> Result<usize, String> {
        let word = self.line(what)?;
        let number = words::number(&word, what, 1, high as u64).map_err(|e| format!("{}: line {}: {e}", self.name, self.next))?;
        Ok(number as usize)
    }

    fn key(&mut self, what: &str) -> Result<Key, String> {
        let word = self.line(what)?;
        unhex(&word).ok_or_else(|| format!("{}: line {}: a key has {} hexadecimal digits", self.name, self.next, 2 * KEY))
    }

    fn end<T>(self, keys: T) -> Result<T, String> {
        match self.lines.len() == self.next {
            true => Ok(keys),
            false => Err(format!("{}: line {} is one too many", self.name, self.next + 1)),
        }
    }
}

fn unhex(word: &str) -> Option<Key> {
    let digits: Vec<u8> = word.chars().map(|c| c.to_digit(16).map(|digit| digit as u8)).collect::<Option<_>>()?;
    let bytes: Vec<u8> = digits.chunks_exact(2).map(|pair| 16 * pair[0] + pair[1]).collect();
    if digits.len() == 2 * KEY { bytes.try_into().ok() } else { None }
}

/// The key files of a new shelf, each with its name: `box-1.key` and so on, and `scope-1.key` to `scope-16.key`.
pub fn new_shelf(t: usize) -> Result<Vec<(String, String)>, String> {
    let several = |n: usize| (0..n).map(|_| random::unguessable()).collect::<Result<Vec<Key>, String>>();
    let writers = random::unguessable()?;
    let keys = several(servers(t))?;
    let links = (0..servers(t)).map(|_| several(CLIENTS)).collect::<Result<Vec<_>, _>>()?;
    let boxes = (1..=servers(t)).map(|number| {
        let mut text = format!("cendrulas box\nt {t}\nnumber {number}\nkey {}\n", hex(&keys[number - 1]));
        add(&mut text, "link", &links[number - 1]);
        (format!("box-{number}.key"), text)
    });
    let scopes = (1..=CLIENTS).map(|number| {
        let mut text = format!("cendrulas scope\nt {t}\nnumber {number}\n");
        if number <= WRITERS {
            writeln!(text, "writers {}", hex(&writers)).expect("a string takes all");
            add(&mut text, "key", &keys);
        }
        add(&mut text, "link", &links.iter().map(|of_box| of_box[number - 1]).collect::<Vec<_>>());
        (format!("scope-{number}.key"), text)
    });
    Ok(boxes.chain(scopes).collect())
}

fn add(text: &mut String, word: &str, keys: &[Key]) {
    for (k, key) in keys.iter().enumerate() {
        writeln!(text, "{word} {} {}", k + 1, hex(key)).expect("a string takes all");
    }
}
