//! What is read: a file, or the standard input.

use crate::ending::{Outcome, Trouble};
use std::ffi::OsStr;
use std::fs::File;
use std::io::{self, Read};
use std::path::Path;

/// The most bytes of an input; no plan and no script that a person writes has so many.
const MOST: u64 = 1 << 24;

/// Some bytes, and where they are from.
pub struct Source {
    /// The file's name, as an error tells it.
    pub name: String,
    /// What stands there.
    pub bytes: Vec<u8>,
}

/// A file's name as an error tells it: in one line, and nothing that would disturb a terminal.
pub fn named(file: &OsStr) -> String {
    let name = Path::new(file).display().to_string();
    name.replace(char::is_control, "?")
}

/// Whether this names the standard input.
pub fn is_standard(file: &OsStr) -> bool {
    file == "-"
}

/// Reads a file, or the standard input for `-`.
pub fn read(file: &OsStr) -> Outcome<Source> {
    let name = match is_standard(file) {
        true => "standard input".to_string(),
        false => named(file),
    };
    let mut bytes = Vec::new();
    let read = match is_standard(file) {
        true => io::stdin().lock().take(MOST + 1).read_to_end(&mut bytes),
        false => File::open(file).and_then(|file| file.take(MOST + 1).read_to_end(&mut bytes)),
    };
    match read {
        Err(error) => Err(Trouble::Input(format!("{name}: {error}"))),
        Ok(_) if bytes.len() as u64 > MOST => {
            Err(Trouble::Input(format!("{name}: more than {MOST} bytes")))
        }
        Ok(_) => Ok(Source { name, bytes }),
    }
}
