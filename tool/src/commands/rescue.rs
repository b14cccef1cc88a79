//! `rescue`: a plan out of damaged plan bytes, with each change in words.

use super::decode::plain;
use crate::arguments::Given;
use crate::ending::{Ending, Outcome, Trouble};
use crate::faults::Fault;
use crate::input;
use crate::json::Json;
use crate::names::Names;
use crate::output;
use crate::subject::{is_text, of_bytes, Subject};
use crate::words;
use bindings::{Change, Plan};

/// Answers it.
pub fn answer(given: &Given) -> Outcome<Ending> {
    let source = input::read(given.argument(0))?;
    let (plan, changes) = match Plan::rescue(&source.bytes) {
        Ok(rescued) => rescued,
        Err(_) if is_text(&source.bytes) => {
            let why = format!(
                "{}: this is a text and no plan bytes; `check` tells what is wrong with it",
                source.name
            );
            return Err(Trouble::Input(why));
        }
        Err(answer) => return Err(Trouble::Faults(source.name, vec![of_bytes(answer)])),
    };
    let subject = Subject {
        source: source.name,
        plan,
        names: Names::default(),
        text: None,
        rest: 0,
        found: None,
    };
    // A rescued plan passes everything but, perhaps, 7: then it has no bytes yet.
    let bytes = plan.bytes();
    if let (Some(file), Ok(bytes)) = (given.value("--write"), &bytes) {
        output::save(file, bytes)?;
    }
    let refused = bytes.as_ref().err().map(|answer| of_bytes(*answer));
    if given.has("--json") {
        output::print(
            json(&subject, &changes, &bytes, refused.as_ref())
                .document()
                .as_bytes(),
        )?;
    } else {
        let mut out = format!(
            "{}: {}\n",
            subject.source,
            words::count(changes.len(), "change", "changes")
        );
        for change in &changes {
            out += &format!("  {}\n", in_words(change));
        }
        out += &format!("\n{}", plain(&subject));
        output::print(out.as_bytes())?;
    }
    match refused {
        None => Ok(Ending::Good),
        Some(mut fault) => {
            fault.advice = Some("lower a budget in the text above".to_string());
            Err(Trouble::Told(fault.line(&subject.source)))
        }
    }
}

/// A change as a sentence; its place is that of the damaged bytes.
fn in_words(change: &Change) -> String {
    let Change {
        what,
        place,
        old_value: old,
        new_value: new,
    } = change;
    let moved = if new < old { "lowered" } else { "raised" };
    match what {
        1 => format!("the header's spare bits were {old} and are cleared"),
        2 => format!("project {place}: its spare bits were {old} and are cleared"),
        3 => format!("kind {place}: its spare bit was {old} and is cleared"),
        4 => format!("project {place}: ceiling {old} {moved} to {new}"),
        5 => format!("project {place}: budget {old} {moved} to {new}"),
        6 => format!("kind {place}: deadline {old} {moved} to {new}, its separation"),
        7 => format!("kind {place} is dropped: its project is not there, or its length is 0 or above its deadline"),
        _ => format!("field {what}, place {place}: {old} {moved} to {new}"),
    }
}

fn json(
    subject: &Subject,
    changes: &[Change],
    bytes: &Result<Vec<u8>, bindings::Answer>,
    refused: Option<&Fault>,
) -> Json {
    let change = |change: &Change| {
        Json::Object(vec![
            ("field", change.what.into()),
            ("place", change.place.into()),
            ("old", change.old_value.into()),
            ("new", change.new_value.into()),
            ("words", in_words(change).into()),
        ])
    };
    let hex = bytes.as_ref().ok().map(|bytes| {
        bytes
            .iter()
            .map(|byte| format!("{byte:02x}"))
            .collect::<String>()
    });
    Json::Object(vec![
        ("command", "rescue".into()),
        ("file", subject.source.as_str().into()),
        ("good", refused.is_none().into()),
        (
            "number",
            refused.and_then(|fault| fault.number).unwrap_or(0).into(),
        ),
        ("admitted", subject.plan.verdict().is_ok().into()),
        ("changes", Json::List(changes.iter().map(change).collect())),
        ("plan", subject.json()),
        ("text", plain(subject).into()),
        ("hex", hex.into()),
    ])
}
