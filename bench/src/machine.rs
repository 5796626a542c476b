//! The machine that is measured on, in words.

use std::fs::read_to_string;
use std::thread::available_parallelism;

/// The processor's name and how many cores this program may use.
pub fn machine() -> String {
    let cores = available_parallelism().map_or(1, usize::from);
    format!("{}, {cores} core{}", processor(), if cores == 1 { "" } else { "s" })
}

fn processor() -> String {
    let told = read_to_string("/proc/cpuinfo").unwrap_or_default();
    let name = told.lines().filter_map(|line| line.split_once(':')).find(|(key, _)| key.trim() == "model name");
    name.map_or("unknown processor", |(_, name)| name.trim()).to_owned()
}
