//! `parchbeetle`: plans judged, drawn and run, for the people on the rack.
//!
//! Everything that is said of a plan or a run is the proved library's, through `bindings`. One file an
//! idea: `arguments` has what can be asked for, `text` and `faults` a plan as text, `subject` a plan from
//! either form, `figures` and `words` what the library says of it, `record` a run; a file of `commands`
//! answers each command, with `slots`, `gantt`, `svg`, `html` and `json` for what it shows.

#![forbid(unsafe_code)]

mod arguments;
mod colour;
mod commands;
mod ending;
mod faults;
mod figures;
mod gantt;
mod html;
mod input;
mod json;
mod names;
mod output;
mod progress;
mod record;
mod script;
mod slots;
mod subject;
mod svg;
mod text;
mod words;

use arguments::Asked;
use ending::{Ending, Trouble};
use std::io::{self, Write};
use std::process::ExitCode;

fn main() -> ExitCode {
    let ending = match arguments::asked(std::env::args_os().skip(1)) {
        Ok(Asked::Told(text)) => output::print(text.as_bytes()).map(|()| Ending::Good),
        Ok(Asked::Do(command, given)) => commands::answer(command, &given),
        Err(trouble) => Err(trouble),
    };
    ending.unwrap_or_else(tell).code()
}

/// Tells why a command did not do what was asked; who has closed the output wants no word.
fn tell(trouble: Trouble) -> Ending {
    if !trouble.is_quiet() {
        let mut errors = io::stderr().lock();
        for line in trouble.lines() {
            // Where not even this can be written, the exit status is all there is.
            let _ = writeln!(errors, "{line}");
        }
    }
    trouble.ending()
}
