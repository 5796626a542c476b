//! The teacher's case on real processes, and tests of `box` and `scope`. docs/PAGE-41.md tells the story and has the listing.

use incident::call::{self, Scope};
use incident::card::{Card, Hasty};
use incident::keys::ScopeKeys;
use incident::search::report;
use incident::serve;
use incident::story::{self, listing};
use incident::{cuts, forged, kills, load, words};
use std::net::SocketAddr;
use std::path::Path;
use std::process::ExitCode;
use std::time::Duration;

const USAGE: &str = "usage: incident                    the story with its listing, then every order of its packets
       incident picture FILE        the story as an SVG
       incident kills TIMES SEED    a box is killed at random moments and must keep what it acknowledged
       incident cuts TIMES SEED     a scope is killed at random moments and must know what it has sent
       incident forged              datagrams that bear a number falsely are dropped
       incident load                saves and loads per second; the cards are in TMPDIR, else in /tmp";
const LOAD_SECONDS: Duration = Duration::from_secs(1);

fn main() -> ExitCode {
    words::run("incident", |words| match *words {
        [] => incident(),
        ["picture", file] => {
            let (told, _) = story::play()?;
            std::fs::write(file, story::picture::picture(&told)).map_err(|e| format!("{file}: {e}"))
        }
        ["kills", times, seed] => killed(times, seed, false),
        ["kills", times, seed, "hasty"] => killed(times, seed, true),
        ["cuts", times, seed] => cut(times, seed, false),
        ["cuts", times, seed, "hasty"] => cut(times, seed, true),
        ["forged"] => {
            println!("{} forged datagrams dropped", forged::forged()?);
            Ok(())
        }
        ["load"] => load::load(LOAD_SECONDS),
        ["hasty-box", card, key, address, seconds] => {
            serve::run(Path::new(card), Path::new(key), address, Some(words::seconds(seconds)?), Hasty::new)
        }
        ["hasty-scope", verb, state, key, boxes, seconds] => hasty_scope(verb, state, key, boxes, seconds),
        _ => Err(USAGE.to_owned()),
    })
}

fn incident() -> Result<(), String> {
    let (told, packets) = story::play()?;
    listing::lines(&told).iter().for_each(|line| println!("{line}"));
    println!("{packets} packets arrived.\n");
    let (table, fine) = report::table();
    table.iter().for_each(|line| println!("{line}"));
    let shortest = report::shortest_order().ok_or("the old rule did not fail")?;
    println!();
    shortest.iter().for_each(|line| println!("{line}"));
    if fine { Ok(()) } else { Err("a row of the table is not as it must be".to_owned()) }
}

fn killed(times: &str, seed: &str, hasty: bool) -> Result<(), String> {
    let times = words::number(times, "TIMES", 1, 1_000_000)?;
    let acknowledged = kills::kills(times, words::number(seed, "SEED", 0, u64::MAX)?, hasty)?;
    println!("{times} kills: all of {acknowledged} acknowledged steps kept");
    Ok(())
}

fn cut(times: &str, seed: &str, hasty: bool) -> Result<(), String> {
    let times = words::number(times, "TIMES", 1, 1_000_000)?;
    let packets = cuts::cuts(times, words::number(seed, "SEED", 0, u64::MAX)?, hasty)?;
    println!("{times} cuts: none of {packets} packets went out ahead of its scope's state");
    Ok(())
}

/// A wrong scope, for the test of cuts.
fn hasty_scope(verb: &str, state: &str, key: &str, boxes: &str, seconds: &str) -> Result<(), String> {
    let boxes: Vec<SocketAddr> = boxes.split(',').map(words::address).collect::<Result<_, _>>()?;
    let mut scope = Scope::restore(Card::lock(Path::new(state))?, ScopeKeys::read(Path::new(key))?, Hasty::new)?;
    if verb == "save" { scope.begin_save(b"a record")? } else { scope.begin_load()? }
    scope.finish(&call::socket(&boxes)?, &boxes, words::seconds(seconds)?).map(|_| ())
}
