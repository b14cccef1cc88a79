//! The commands, a file each.

mod budget;
mod build;
mod check;
mod decode;
mod encode;
mod rescue;
mod run;
mod table;

pub use budget::answer as budget;
pub use build::answer as build;
pub use check::{answer as check, rows as verdict_rows, LEGEND};
pub use decode::answer as decode;
pub use encode::answer as encode;
pub use rescue::answer as rescue;
pub use run::{answer as run, kind_rows, project_rows};
pub use table::answer as table;

use crate::arguments::{Command, Given};
use crate::colour::Colours;
use crate::ending::{Ending, Outcome, Trouble};
use crate::faults::Fault;
use crate::json::Json;
use crate::output;
use crate::subject::Subject;

/// Answers a command. With `--json` faults of a plan are told there too.
pub fn answer(command: &Command, given: &Given) -> Outcome<Ending> {
    let outcome = (command.answer)(given);
    if let Err(Trouble::Faults(source, faults)) = &outcome {
        if given.has("--json") {
            output::print(refused(command.name, source, faults).document().as_bytes())?;
        }
    }
    outcome
}

/// The fields of a plan that has faults.
fn refused(command: &'static str, source: &str, faults: &[Fault]) -> Json {
    Json::Object(vec![
        ("command", command.into()),
        ("file", source.into()),
        ("good", false.into()),
        (
            "faults",
            Json::List(faults.iter().map(Fault::json).collect()),
        ),
    ])
}

/// The fields with which each good answer begins.
fn good(command: &'static str, source: &str, fields: Vec<(&'static str, Json)>) -> Json {
    let mut all = vec![
        ("command", command.into()),
        ("file", source.into()),
        ("good", true.into()),
    ];
    all.extend(fields);
    Json::Object(all)
}

/// Whether to print in colours.
fn colours(given: &Given) -> Outcome<Colours> {
    let word = given.word("--color");
    Colours::of(word.as_deref()).ok_or(Trouble::Use(
        "`--color` is auto, always or never".to_string(),
    ))
}

/// What is said beside the output: a budget that was found, bytes that follow.
fn notes(subject: &Subject) {
    if let Some(found) = &subject.found {
        output::note(found);
    }
    if subject.rest > 0 {
        output::note(&format!(
            "{}: {} more bytes follow the plan",
            subject.source, subject.rest
        ));
    }
}
