//! "Program `play` reads a plan from standard input, then commands of three bytes"; with the word `absolute-clock`, by the old rules.

#![forbid(unsafe_code)]

use std::io::{stdin, stdout};
use std::process::ExitCode;

fn main() -> ExitCode {
    let words: Vec<String> = std::env::args().skip(1).collect();
    match words.iter().map(String::as_str).collect::<Vec<_>>()[..] {
        [] => second::play(stdin().lock(), stdout().lock()),
        ["absolute-clock"] => second::play_by_absolute_clock(stdin().lock(), stdout().lock()),
        _ => {
            eprintln!("usage: second-play [absolute-clock]");
            return ExitCode::from(2);
        }
    }
    ExitCode::SUCCESS
}
