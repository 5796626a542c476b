//! A storage box: its memory in a card file, its keys in a key file, packets over UDP. docs/EMBEDDING.md says how to use it.

use incident::card::Card;
use incident::keys::BoxKeys;
use incident::{serve, servers, words};
use std::path::Path;
use std::process::ExitCode;

const USAGE: &str = "usage: box new CARD KEY
       box run CARD KEY ADDRESS [SECONDS]    (ADDRESS like 127.0.0.1:4101; without SECONDS for ever)";

fn main() -> ExitCode {
    words::run("box", |words| match *words {
        ["new", card, key] => new(Path::new(card), &BoxKeys::read(Path::new(key))?),
        ["run", card, key, address] => serve::run(Path::new(card), Path::new(key), address, None, |card| card),
        ["run", card, key, address, seconds] => {
            let time = words::seconds(seconds)?;
            serve::run(Path::new(card), Path::new(key), address, Some(time), |card| card)
        }
        _ => Err(USAGE.to_owned()),
    })
}

fn new(card: &Path, keys: &BoxKeys) -> Result<(), String> {
    Card::lock(card)?.create(&serve::blank(keys))?;
    println!("box {} of {} is blank", keys.number, servers(keys.t));
    Ok(())
}
