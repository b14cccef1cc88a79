//! `budget`: the smallest budget of a project, and the plan with it.

use super::{good, notes};
use crate::arguments::Given;
use crate::ending::{Ending, Outcome, Trouble};
use crate::faults::{About, Fault};
use crate::names::shown;
use crate::output;
use crate::subject::Subject;
use crate::words;
use bindings::in_words;

/// Answers it.
pub fn answer(given: &Given) -> Outcome<Ending> {
    let mut subject = Subject::read(given.argument(0))?;
    let word = given.argument(1).to_string_lossy().into_owned();
    let Some(project) = subject.names.project_of(&word) else {
        let why = format!(
            "{}: no project is called `{}`",
            subject.source,
            shown(&word)
        );
        return Err(Trouble::Input(why));
    };
    let place = usize::try_from(project).unwrap_or(usize::MAX);
    let budget = match subject.plan.smallest_budget(project) {
        Ok(budget) => budget,
        Err(answer) => {
            let words = words::smallest(&subject.plan, &subject.names, place);
            let words = words.unwrap_or_else(|| in_words(answer.number).to_string());
            let about = match answer.number {
                8 => About::Kind(usize::from(answer.place)),
                _ => About::Plan,
            };
            let line = subject.line_of_project(place);
            let fault = Fault::refused(line, answer.number, about, words);
            return Err(Trouble::Faults(subject.source, vec![fault]));
        }
    };
    let before = subject
        .plan
        .project
        .get(place)
        .map_or(0, |project| project.budget);
    if let Some(project) = subject.plan.project.get_mut(place) {
        project.budget = budget;
    }
    if let Some(file) = given.value("--write") {
        let bytes = match &subject.text {
            Some(text) => text.with(&subject.plan).into_bytes(),
            None => subject.plan.bytes().unwrap_or_default(),
        };
        output::save(file, &bytes)?;
    }
    let called = subject.names.project(place);
    let verdict = subject.plan.verdict();
    if given.has("--json") {
        let fields = vec![
            ("project", place.into()),
            ("name", subject.names.of_project(place).into()),
            ("budget", before.into()),
            ("smallest_budget", budget.into()),
            ("admitted_with_it", verdict.is_ok().into()),
            ("plan", subject.json()),
        ];
        output::print(
            good("budget", &subject.source, fields)
                .document()
                .as_bytes(),
        )?;
    } else {
        notes(&subject);
        let mut out = format!("budget {budget} is the smallest that serves {called}");
        if before > 0 {
            out += &format!("; it has {before}");
        }
        out += match verdict {
            Ok(_) => "\nwith it the plan is admitted\n",
            Err(_) => {
                "\nwith it the plan is not admitted yet: another project's kinds do not fit\n"
            }
        };
        output::print(out.as_bytes())?;
    }
    Ok(Ending::Good)
}
