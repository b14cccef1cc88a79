//! `decode`: a plan as text, with the names and comments of another text where one is given.

use super::good;
use crate::arguments::Given;
use crate::ending::{Ending, Outcome, Trouble};
use crate::input;
use crate::output;
use crate::subject::{is_text, Subject};
use crate::text::{kind_line, project_line, Text};
use crate::words;
use bindings::{in_words, Plan};

/// Answers it.
pub fn answer(given: &Given) -> Outcome<Ending> {
    let file = given.argument(0);
    if input::is_standard(file) && given.value("--names").is_some_and(input::is_standard) {
        return Err(Trouble::Use(
            "the plan and the names cannot both be the standard input".to_string(),
        ));
    }
    let mut subject = Subject::read(file)?;
    let text = match given.value("--names") {
        Some(names) => {
            let names = named(input::read(names)?, &subject.plan)?;
            subject.names = names.names();
            names.with(&subject.plan)
        }
        None => plain(&subject),
    };
    if given.has("--json") {
        let fields = vec![
            ("admitted", subject.plan.verdict().is_ok().into()),
            ("plan", subject.json()),
            ("text", text.into()),
            ("bytes_that_follow", subject.rest.into()),
        ];
        output::print(
            good("decode", &subject.source, fields)
                .document()
                .as_bytes(),
        )?;
    } else {
        output::print(text.as_bytes())?;
    }
    Ok(Ending::Good)
}

/// The text that names are taken from.
fn named(source: input::Source, plan: &Plan) -> Outcome<Text> {
    if !is_text(&source.bytes) {
        return Err(Trouble::Input(format!(
            "{}: this is no text plan, so it has no names",
            source.name
        )));
    }
    let text = Text::of(&source.bytes);
    if !text.faults.is_empty() {
        return Err(Trouble::Faults(source.name, text.faults));
    }
    for (what, own, others) in [
        ("projects", usize::from(plan.projects), text.projects.len()),
        ("kinds", usize::from(plan.kinds), text.kinds.len()),
    ] {
        if own != others {
            output::note(&format!(
                "{} has {others} {what}, and the plan {own}",
                source.name
            ));
        }
    }
    Ok(text)
}

/// A plan as text, with what the verdict says of it as comments.
pub fn plain(subject: &Subject) -> String {
    let plan = &subject.plan;
    let verdict = plan.verdict();
    let mut text = format!("cards {}\nframe {}\n", plan.cards, plan.frame);
    for place in 0..subject.projects() {
        let line = project_line(plan, place).unwrap_or_default();
        text += &format!("{line}  # project {place}\n");
    }
    for place in 0..subject.kinds() {
        let line = kind_line(plan, place).unwrap_or_default();
        let said = verdict.as_ref().ok().and_then(|verdict| {
            let k = verdict.k.get(place)?;
            let slice = verdict.slice.get(place)?;
            Some(format!(", k {k}, worst in slice {slice}"))
        });
        text += &format!("{line}  # kind {place}{}\n", said.unwrap_or_default());
    }
    text += &match verdict {
        Ok(_) => "# admitted\n".to_string(),
        Err(answer) if answer.number == 8 => format!(
            "# the plan is not admitted ({}): {}\n",
            words::told(answer),
            words::advice(plan, &subject.names, answer)
        ),
        Err(answer) => format!("# {}: {}\n", words::told(answer), in_words(answer.number)),
    };
    if subject.rest > 0 {
        text += &format!("# {} more bytes follow the plan\n", subject.rest);
    }
    text
}
