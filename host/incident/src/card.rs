//! A card: a file that is replaced as a whole, so that a power cut at any moment leaves the old content or the new one.
//!
//! The new content goes to a second file, which is synced, takes the first one's name and is made known in its folder, all before `replace`
//! returns. The digest at the end tells a damaged file. A lock keeps a second program off; the system lifts it when the holder ends, however it ends.

use crate::words;
use cendrulas::DIGEST;
use std::fs::{self, File, OpenOptions};
use std::io::{self, Write};
use std::os::linux::net::SocketAddrExt;
use std::os::unix::net::{SocketAddr, UnixDatagram};
use std::path::{Path, PathBuf};
use std::sync::mpsc::{channel, Sender};

/// What a box and a scope ask of their card.
pub trait Durable {
    /// Replaces the content; when this returns, it is durable.
    fn replace(&self, content: &[u8]) -> Result<(), String>;
}

/// A card file that this program alone uses.
pub struct Card {
    /// As it was named by the user.
    name: String,
    path: PathBuf,
    folder: File,
    _lock: UnixDatagram,
}

fn digest(bytes: &[u8]) -> [u8; DIGEST] {
    let mut digest = [0; DIGEST];
    assert_eq!(cendrulas::digest(bytes, &mut digest).refusal, 0, "the output has its length");
    digest
}

/// The place of a file that need not be there yet, by whatever way it was named.
fn place(path: &Path) -> io::Result<(PathBuf, PathBuf)> {
    let folder = match path.parent() {
        Some(folder) if folder != Path::new("") => folder,
        _ => Path::new("."),
    };
    let folder = folder.canonicalize()?;
    let name = path.file_name().ok_or_else(|| io::Error::other("it names no file"))?;
    Ok((folder.join(name), folder))
}

/// A name in the system's own space, bound for as long as this program runs.
fn lock(path: &Path) -> io::Result<UnixDatagram> {
    let name = format!("cendrulas {}", words::hex(&digest(path.as_os_str().as_encoded_bytes())));
    UnixDatagram::bind_addr(&SocketAddr::from_abstract_name(name)?)
}

impl Card {
    /// Locks a card, be there a file or not.
    pub fn lock(path: &Path) -> Result<Self, String> {
        let name = path.display().to_string();
        let unusable = |e: io::Error| format!("{name}: {e}");
        let (path, folder) = place(path).map_err(unusable)?;
        let folder = File::open(folder).map_err(unusable)?;
        match lock(&path) {
            Ok(_lock) => Ok(Card { name, path, folder, _lock }),
            Err(e) if e.kind() == io::ErrorKind::AddrInUse => Err(format!("{name}: another program uses it")),
            Err(e) => Err(unusable(e)),
        }
    }

    /// What was kept last.
    pub fn read(&self) -> Result<Vec<u8>, String> {
        read(&self.path).map_err(|e| format!("{}: {e}", self.name))
    }

    /// Makes the first content; a card that is there already stays as it is.
    pub fn create(&self, content: &[u8]) -> Result<(), String> {
        if self.path.exists() {
            return Err(format!("{}: it is there already", self.name));
        }
        self.replace(content)
    }

    fn write(&self, beside: &Path, content: &[u8]) -> io::Result<()> {
        let mut file = OpenOptions::new().write(true).create(true).truncate(true).open(beside)?;
        file.write_all(content)?;
        file.write_all(&digest(content))?;
        file.sync_all()?;
        fs::rename(beside, &self.path)?;
        self.folder.sync_all()
    }
}

impl Durable for Card {
    fn replace(&self, content: &[u8]) -> Result<(), String> {
        let mut beside = self.path.clone().into_os_string();
        beside.push(".new");
        let replaced = self.write(Path::new(&beside), content);
        replaced.map_err(|e| format!("{}: it can't be kept: {e}", self.name))
    }
}

/// A wrong card, for the tests of kills: it returns at once and is replaced a little later.
pub struct Hasty(Sender<Vec<u8>>);

impl Hasty {
    pub fn new(card: Card) -> Self {
        let (later, contents) = channel::<Vec<u8>>();
        std::thread::spawn(move || contents.iter().try_for_each(|content| card.replace(&content)));
        Hasty(later)
    }
}

impl Durable for Hasty {
    fn replace(&self, content: &[u8]) -> Result<(), String> {
        self.0.send(content.to_vec()).map_err(|e| e.to_string())
    }
}

/// What a card file holds, without a lock.
pub fn read(path: &Path) -> Result<Vec<u8>, String> {
    let bytes = fs::read(path).map_err(|e| e.to_string())?;
    match bytes.split_last_chunk::<DIGEST>() {
        Some((content, kept)) if digest(content) == *kept => Ok(content.to_vec()),
        _ => Err("it is no card, or a damaged one".to_owned()),
    }
}
