//! The drill program: a sheet on standard input, its listing on standard output.
//! On any error a message on standard error, status 1 and nothing printed.

use cendrulas::{drill, listing_room, WORK_AREA};
use std::io::{self, Read, Write};
use std::process::ExitCode;

fn main() -> ExitCode {
    match run() {
        Ok(()) => ExitCode::SUCCESS,
        Err(message) => {
            eprintln!("drill: {message}");
            ExitCode::FAILURE
        }
    }
}

fn run() -> Result<(), String> {
    let mut sheet = Vec::new();
    io::stdin().lock().read_to_end(&mut sheet).map_err(|e| format!("the sheet can't be read: {e}"))?;
    let mut out = zeros(listing_room(&sheet))?;
    let mut work = zeros(WORK_AREA)?;
    let listing = drill(&sheet, &mut out, &mut work);
    if listing.refusal != 0 {
        return Err(format!("the run was refused with {}", listing.refusal));
    }
    let mut stdout = io::stdout().lock();
    let printed = stdout.write_all(&out[..listing.count]).and_then(|()| stdout.flush());
    printed.map_err(|e| format!("the listing can't be printed: {e}"))
}

/// A buffer to lend; a sheet too long for the machine is an error and no abort.
fn zeros(n: usize) -> Result<Vec<u8>, String> {
    let mut bytes = Vec::new();
    bytes.try_reserve_exact(n).map_err(|_| format!("no memory for {n} bytes"))?;
    bytes.resize(n, 0);
    Ok(bytes)
}
