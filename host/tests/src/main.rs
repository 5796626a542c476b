//! Holds the proved library to what is known of it. `tests FOLDER..` puts the vectors of folders to it, in the form of examples/README.md; `tests`
//! holds its plans to what it really makes and, on random and damaged inputs, all of it to the plain shelf. The first difference is printed with its
//! input and ends the run with status 1; so does what cannot be put to the library, with file and line.

mod check;
mod kinds;
mod model;
mod plain;
mod plans;
mod random;
mod text;
mod vectors;

use check::Run;
use std::path::PathBuf;

fn main() {
    let folders: Vec<PathBuf> = std::env::args_os().skip(1).map(PathBuf::from).collect();
    let mut run = Run::new();
    for folder in &folders {
        vectors::all(&mut run, folder);
    }
    if folders.is_empty() {
        plans::all(&mut run);
        random::all(&mut run);
        run.every_kind();
    }
    run.end();
}
