//! Where things are written. What cannot be written is an error; a reader that has gone is not.

use crate::ending::{Outcome, Trouble};
use crate::input::named;
use std::ffi::OsStr;
use std::io::{self, Write};

/// What the standard output is called in an error.
const STANDARD: &str = "standard output";

/// Writes to the standard output.
pub fn print(bytes: &[u8]) -> Outcome<()> {
    let mut out = io::stdout().lock();
    done(out.write_all(bytes).and_then(|()| out.flush()))
}

/// What writing to the standard output came to.
pub fn done(written: io::Result<()>) -> Outcome<()> {
    written.map_err(|error| Trouble::Output(STANDARD.to_string(), error))
}

/// Writes a file.
pub fn save(file: &OsStr, bytes: &[u8]) -> Outcome<()> {
    std::fs::write(file, bytes).map_err(|error| Trouble::Output(named(file), error))
}

/// Says something beside the output.
pub fn note(words: &str) {
    let _ = writeln!(io::stderr().lock(), "parchbeetle: {words}");
}
