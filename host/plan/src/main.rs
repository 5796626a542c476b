//! The planner's program: what a lab takes, as a table for its buyer or as a list for other programs. All numbers are the library's.
//! Wrong words give status 2, any other error status 1, each with a message on standard error and nothing printed.

mod csv;
mod figures;
mod table;
mod words;

use figures::Figures;
use std::io::{self, Write};
use std::process::ExitCode;
use words::Asked;

const HELP: &str = include_str!("../help.txt");

fn main() -> ExitCode {
    let words: Vec<String> = std::env::args_os().skip(1).map(|word| word.to_string_lossy().into_owned()).collect();
    match text(&words) {
        Ok(text) => print(&text),
        Err(message) => {
            eprintln!("plan: {message}");
            ExitCode::from(2)
        }
    }
}

/// What is to be printed, or what is wrong with the words.
fn text(words: &[String]) -> Result<String, String> {
    match words::asked(words)? {
        Asked::Help => Ok(HELP.to_owned()),
        Asked::Plan { lab, csv } => {
            let figures = Figures::of(lab).map_err(|refusal| words::refused(&lab, refusal))?;
            Ok(if csv { csv::rows(&figures) } else { table::table(&figures) })
        }
    }
}

fn print(text: &str) -> ExitCode {
    let mut stdout = io::stdout().lock();
    match stdout.write_all(text.as_bytes()).and_then(|()| stdout.flush()) {
        Ok(()) => ExitCode::SUCCESS,
        Err(e) => {
            eprintln!("plan: the plan can't be printed: {e}");
            ExitCode::FAILURE
        }
    }
}
