//! Makes the key files of a new shelf: `keys FOLDER T`. Each party gets its own file and no other; keys.rs says what stands in them.

use incident::{keys, servers, words, CLIENTS};
use std::fs::{self, OpenOptions};
use std::io::Write;
use std::os::unix::fs::OpenOptionsExt;
use std::path::Path;
use std::process::ExitCode;

const USAGE: &str = "usage: keys FOLDER T    (T from 1 to 4: so many boxes may fail, of 3T+1)";

fn main() -> ExitCode {
    words::run("keys", |words| match *words {
        [folder, t] => make(Path::new(folder), words::number(t, "T", 1, 4)? as usize),
        _ => Err(USAGE.to_owned()),
    })
}

/// Files that are there already stay as they are: a second set of keys would shut out everyone who has the first.
fn make(folder: &Path, t: usize) -> Result<(), String> {
    fs::create_dir_all(folder).map_err(|e| format!("{}: {e}", folder.display()))?;
    for (name, text) in keys::new_shelf(t)? {
        let path = folder.join(name);
        let file = OpenOptions::new().write(true).create_new(true).mode(0o600).open(&path);
        let made = file.and_then(|mut file| file.write_all(text.as_bytes()));
        made.map_err(|e| format!("{}: {e}", path.display()))?;
    }
    println!("keys of {} boxes and {CLIENTS} scopes in {}", servers(t), folder.display());
    Ok(())
}
