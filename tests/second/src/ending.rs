//! How a program ends: with a text or octets for its reader, or with what went
//! wrong.

use std::io::{self, Write};
use std::process::ExitCode;

/// Prints the text or the octets, or tells the fault on standard error.
pub fn ending(outcome: Result<impl AsRef<[u8]>, String>) -> ExitCode {
    let printed = outcome.and_then(|text| print(text.as_ref()).map_err(|error| error.to_string()));
    match printed {
        Ok(()) => ExitCode::SUCCESS,
        Err(fault) => {
            eprintln!("{}", fault.trim_end());
            ExitCode::FAILURE
        }
    }
}

fn print(octets: &[u8]) -> io::Result<()> {
    let mut stdout = io::stdout().lock();
    stdout.write_all(octets)?;
    stdout.flush()
}
