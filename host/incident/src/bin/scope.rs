//! A scope's side of the shelf: saves and loads over UDP, with its state in a file. docs/EMBEDDING.md says how to use it.

use cendrulas::{GivenUp, Round, CONTENT_ROOM};
use incident::call::{self, Outcome, Scope};
use incident::card::Card;
use incident::keys::ScopeKeys;
use incident::words;
use std::io::{self, Read, Write};
use std::net::SocketAddr;
use std::path::Path;
use std::process::ExitCode;

const USAGE: &str = "usage: scope new STATE KEY
       scope save STATE KEY BOXES SECONDS < RECORD
       scope load STATE KEY BOXES SECONDS > RECORD
       scope finish STATE KEY BOXES SECONDS    (goes on with a call that was cut off)
       scope give-up STATE KEY
BOXES are the addresses of boxes 1, 2, .. with commas between; a call that has not ended after SECONDS is given up
Status 1: an error, told on standard error. 3: a load has found that nothing was ever saved";

/// A record of no bytes prints as little as a blank shelf: the status tells them apart.
const BLANK: u8 = 3;

fn main() -> ExitCode {
    words::run("scope", |words| match *words {
        ["new", state, key] => {
            let (card, keys) = (Card::lock(Path::new(state))?, ScopeKeys::read(Path::new(key))?);
            Scope::create(card, keys).map(|_| ExitCode::SUCCESS)
        }
        ["give-up", state, key] => {
            let mut scope = open(state, key)?;
            in_hand(&scope)?;
            let outcome = scope.give_up()?;
            println!("{}", given_up(&scope, &outcome));
            Ok(ExitCode::SUCCESS)
        }
        [verb @ ("save" | "load" | "finish"), state, key, boxes, seconds] => run(verb, open(state, key)?, boxes, seconds),
        _ => Err(USAGE.to_owned()),
    })
}

fn open(state: &str, key: &str) -> Result<Scope, String> {
    Scope::restore(Card::lock(Path::new(state))?, ScopeKeys::read(Path::new(key))?, |card| card)
}

fn in_hand(scope: &Scope) -> Result<(), String> {
    if scope.in_hand() { Ok(()) } else { Err("no call is in hand".to_owned()) }
}

fn run(verb: &str, mut scope: Scope, boxes: &str, seconds: &str) -> Result<ExitCode, String> {
    let boxes: Vec<SocketAddr> = boxes.split(',').map(words::address).collect::<Result<_, _>>()?;
    if boxes.len() != scope.boxes() {
        return Err(format!("the shelf has {} boxes, and {} addresses are given", scope.boxes(), boxes.len()));
    }
    let time = words::seconds(seconds)?;
    match verb {
        "save" => scope.begin_save(&record()?)?,
        "load" => scope.begin_load()?,
        _ => in_hand(&scope)?,
    }
    let outcome = scope.finish(&call::socket(&boxes)?, &boxes, time)?;
    show(&scope, outcome)
}

/// The record on standard input; of a longer one as much as shows that it is too long.
fn record() -> Result<Vec<u8>, String> {
    let mut record = Vec::new();
    let read = io::stdin().lock().take(CONTENT_ROOM as u64 + 1).read_to_end(&mut record);
    read.map_err(|e| format!("the record can't be read: {e}"))?;
    Ok(record)
}

/// A record goes to standard output, what is said about it to standard error.
fn show(scope: &Scope, outcome: Outcome) -> Result<ExitCode, String> {
    match outcome {
        Outcome::Saved(label) => println!("saved on the shelf, number {}", label.number),
        Outcome::Shown(label, record) => {
            eprintln!("number {} of scope {}, {} bytes", label.number, label.writer, record.len());
            let mut stdout = io::stdout().lock();
            stdout.write_all(&record).and_then(|()| stdout.flush()).map_err(|e| format!("the record can't be shown: {e}"))?;
        }
        Outcome::Blank => {
            eprintln!("blank: nothing has been saved");
            return Ok(ExitCode::from(BLANK));
        }
        Outcome::GivenUp { .. } => return Err(given_up(scope, &outcome)),
    }
    Ok(ExitCode::SUCCESS)
}

fn given_up(scope: &Scope, outcome: &Outcome) -> String {
    let Outcome::GivenUp { round, replies, how, full } = outcome else { return String::new() };
    let kind = match (round, how) {
        (_, GivenUp::InComplete) => "not confirmed: a later load may show this record; a further save that ends settles it",
        _ if *full > 0 => "this record is never shown",
        (Round::Clock | Round::Store, _) => "this record is never shown; it can be saved anew",
        _ => "nothing is shown",
    };
    let full = if *full > 0 { format!("; the shelf is full: {full} boxes keep no more records") } else { String::new() };
    format!("given up in round {}, with {replies} of {} replies: {kind}{full}", round.name(), scope.quorum())
}
