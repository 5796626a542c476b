//! What programs do with the words after their name, and with an error.

use std::net::{SocketAddr, ToSocketAddrs};
use std::process::{ExitCode, Termination};
use std::time::Duration;

/// Runs a program on its words. An error goes to standard error and gives status 1.
pub fn run<A: Termination>(name: &str, program: impl FnOnce(&[&str]) -> Result<A, String>) -> ExitCode {
    let words: Vec<String> = std::env::args_os().skip(1).map(|word| word.to_string_lossy().into_owned()).collect();
    let words: Vec<&str> = words.iter().map(String::as_str).collect();
    match program(&words) {
        Ok(status) => status.report(),
        Err(message) => {
            eprintln!("{name}: {message}");
            ExitCode::FAILURE
        }
    }
}

/// A whole number from `low` to `high`.
pub fn number(word: &str, what: &str, low: u64, high: u64) -> Result<u64, String> {
    let number = word.parse().ok().filter(|n| (low..=high).contains(n));
    number.ok_or_else(|| format!("{what} is a whole number from {low} to {high}, and not \"{word}\""))
}

/// How long to go on, in seconds.
pub fn seconds(word: &str) -> Result<Duration, String> {
    Ok(Duration::from_secs(number(word, "SECONDS", 1, 86_400)?))
}

pub fn address(word: &str) -> Result<SocketAddr, String> {
    let mut found = word.to_socket_addrs().map_err(|e| format!("\"{word}\" is no address like 127.0.0.1:4101: {e}"))?;
    found.next().ok_or_else(|| format!("\"{word}\" names no address"))
}

pub fn hex(bytes: &[u8]) -> String {
    bytes.iter().map(|byte| format!("{byte:02x}")).collect()
}
