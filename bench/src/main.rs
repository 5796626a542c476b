//! What operations cost: the proved library, the plain shelf, and their ratio. bench/run builds and calls this.

mod calls;
mod coding;
mod digest;
mod drill;
mod growth;
mod machine;
mod plan;
mod plot;
mod server;
mod sides;
mod table;

use std::env::args;
use std::fs::write;
use std::process::ExitCode;
use table::Table;

/// Where the picture of growth stands, from the repository's root.
const PICTURE: &str = "docs/growth.svg";

fn main() -> ExitCode {
    let words: Vec<String> = args().skip(1).collect();
    let words: Vec<&str> = words.iter().map(String::as_str).collect();
    let done = match words[..] {
        ["--growth"] => growth(),
        ["--repeat", side, times, name] => repeat(side, times, name),
        [flag, ..] if flag.starts_with('-') => Err(format!("{} is not known: docs/BENCH.md has what can be asked", words.join(" "))),
        _ => measure(words.join(" ")),
    };
    match done {
        Ok(()) => ExitCode::SUCCESS,
        Err(why) => {
            eprintln!("bench: {why}");
            ExitCode::FAILURE
        }
    }
}

/// The rows whose names have these words; all have none.
fn measure(words: String) -> Result<(), String> {
    println!("{}", machine::machine());
    let none = format!("no row's name has the words: {words}");
    let mut table = Table::printed(words);
    rows(&mut table);
    if table.costs().is_empty() {
        return Err(none);
    }
    Ok(())
}

fn growth() -> Result<(), String> {
    let machine = machine::machine();
    println!("{machine}\nns per operation, least of several");
    let picture = plot::picture(&growth::tables(), &machine);
    write(PICTURE, picture).map_err(|why| format!("{PICTURE}: {why}"))
}

/// Runs one side of a row so often, for a counter of instructions (bench/instructions); prints the row's name.
fn repeat(side: &str, times: &str, name: &str) -> Result<(), String> {
    let times: u32 = times.parse().map_err(|_| format!("{times} is no number of times"))?;
    let (proved, plain) = match side {
        "proved" => (times, 0),
        "plain" => (0, times),
        _ => return Err(format!("{side} is not a side: proved, plain")),
    };
    rows(&mut Table::repeated(name.to_owned(), proved, plain));
    Err(format!("no row of single operations has the words: {name}"))
}

fn rows(table: &mut Table) {
    digest::rows(table);
    coding::rows(table);
    server::rows(table);
    calls::rows(table);
    drill::rows(table);
    plan::rows(table);
}

/// Bytes that look like no pattern, the same in every run.
fn content(n: usize) -> Vec<u8> {
    (0..n as u32).map(|i| (i.wrapping_mul(2_654_435_761) >> 13) as u8).collect()
}

/// A number with commas between thousands.
fn grouped(n: usize) -> String {
    if n < 1_000 {
        return n.to_string();
    }
    format!("{},{:03}", grouped(n / 1_000), n % 1_000)
}
