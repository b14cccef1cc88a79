//! `run`: a plan run by a script or at random, as `play`'s lines, a chart, a picture or a page.

use super::{colours, notes};
use crate::arguments::Given;
use crate::ending::{Ending, Outcome, Trouble};
use crate::figures;
use crate::gantt;
use crate::html;
use crate::input;
use crate::json::Json;
use crate::names::number;
use crate::output;
use crate::record::{self, Record};
use crate::script::{self, Random, Step};
use crate::subject::Subject;
use crate::svg;
use crate::words;
use std::io::{self, BufWriter, Write};

/// The most slices that a picture, a page, a chart or a JSON object has.
const MOST_DRAWN: u64 = 100_000;
const MOST_IN_PICTURE: u64 = 4096;

/// The slices of a random run, and the most of them.
const SLICES: u64 = 64;
const MOST_SLICES: u64 = 1_000_000_000;

/// Answers it.
pub fn answer(given: &Given) -> Outcome<Ending> {
    let colours = colours(given)?;
    let plan_file = given.argument(0);
    let script_file = given.arguments.get(1);
    if input::is_standard(plan_file) && script_file.is_some_and(|file| input::is_standard(file)) {
        return Err(Trouble::Use(
            "the plan and the script cannot both be the standard input".to_string(),
        ));
    }
    let random = random(given)?;
    if random.is_some() == script_file.is_some() {
        return Err(Trouble::Use(
            "a run wants a script, or --random SEED".to_string(),
        ));
    }
    let subject = Subject::read(plan_file)?;
    let (steps, total): (Box<dyn Iterator<Item = Step>>, u64) = match (random, script_file) {
        (Some((seed, slices)), _) => (Box::new(Random::new(&subject.plan, seed, slices)), slices),
        (None, file) => {
            let file = file.map_or(std::ffi::OsStr::new("-"), |file| file.as_os_str());
            let steps = script::read(&input::read(file)?, &subject.names)?;
            let slices = |step: &Step| match step {
                Step::Slices(count) => *count,
                Step::Release(..) => 0,
            };
            let total = steps.iter().map(slices).fold(0, u64::saturating_add);
            (Box::new(steps.into_iter()), total)
        }
    };
    let pictured = given.has("--svg") || given.has("--html");
    let drawn = given.has("--gantt") || given.has("--json");
    for (asked, most, what) in [
        (pictured, MOST_IN_PICTURE, "a picture or a page"),
        (drawn, MOST_DRAWN, "a chart or a JSON object"),
    ] {
        if asked && total > most {
            return Err(Trouble::Use(format!(
                "{total} slices are too many for {what}: it has at most {most}"
            )));
        }
    }

    let fresh = match subject.plan.fresh() {
        Ok(fresh) => fresh,
        Err(answer) => {
            if !given.has("--json") {
                output::print(
                    format!("plan refused {} at {}\n", answer.number, answer.place).as_bytes(),
                )?;
            }
            let fault = subject.not_admitted(answer);
            return Err(Trouble::Faults(subject.source, vec![fault]));
        }
    };
    if !given.has("--json") {
        notes(&subject);
    }
    let mut out = BufWriter::new(io::stdout().lock());
    let lines: Option<&mut dyn Write> = match drawn {
        true => None,
        false => Some(&mut out),
    };
    let record = record::run(fresh, steps, total, pictured || drawn, lines)?;
    let slots = subject.plan.slots().unwrap_or_default();
    if let Some(file) = given.value("--svg") {
        output::save(
            file,
            svg::chart(&subject, &record, &slots, record.band()).as_bytes(),
        )?;
    }
    if let Some(file) = given.value("--html") {
        let figures = figures::of(&subject.plan);
        output::save(
            file,
            html::page(&subject, &figures, &record, &slots).as_bytes(),
        )?;
    }
    let text = match (given.has("--json"), given.has("--gantt")) {
        (true, _) => json(&subject, &record).document(),
        (false, true) => format!(
            "{}\n{}",
            gantt::chart(&record, &subject.names, &slots, colours),
            summary(&subject, &record)
        ),
        (false, false) => format!("\n{}", summary(&subject, &record)),
    };
    output::done(out.write_all(text.as_bytes()).and_then(|()| out.flush()))?;
    Ok(match record.refused {
        0 => Ending::Good,
        _ => Ending::Refused,
    })
}

/// The seed and the slices of a random run.
fn random(given: &Given) -> Outcome<Option<(u64, u64)>> {
    let read = |name: &str| match given.word(name) {
        None => Ok(None),
        Some(word) => match number(&word) {
            Some(number) => Ok(Some(number)),
            None => Err(Trouble::Use(format!("`{name}` wants a whole number"))),
        },
    };
    let slices = read("--slices")?;
    if slices.is_some_and(|slices| slices > MOST_SLICES) {
        return Err(Trouble::Use(format!("`--slices` is at most {MOST_SLICES}")));
    }
    match (read("--random")?, slices) {
        (Some(seed), slices) => Ok(Some((seed, slices.unwrap_or(SLICES)))),
        (None, None) => Ok(None),
        (None, Some(_)) => Err(Trouble::Use(
            "`--slices` is for `--random`; a script has its own".to_string(),
        )),
    }
}

/// What was counted, in words.
fn summary(subject: &Subject, record: &Record) -> String {
    let frames = words::count(
        usize::try_from(record.frames()).unwrap_or(usize::MAX),
        "whole frame",
        "whole frames",
    );
    let mut out = words::columns(&kind_rows(subject, record), 1);
    out.push('\n');
    out += &words::columns(&project_rows(subject, record), 1);
    out += &format!("\n{} slices, {frames}", record.slices);
    match record.refused {
        0 => {}
        more => out += &format!("; {more} refused"),
    }
    out + "\n"
}

fn told(number: Option<u64>) -> String {
    number.map_or("-".to_string(), |number| number.to_string())
}

/// By kind: units, slices served, the least room before a deadline.
pub fn kind_rows(subject: &Subject, record: &Record) -> Vec<Vec<String>> {
    let mut rows = vec![[
        "kind",
        "units",
        "done",
        "slices served",
        "least room before a deadline",
    ]
    .map(str::to_string)
    .to_vec()];
    for (kind, tally) in record.kinds.iter().enumerate() {
        rows.push(vec![
            subject.names.short_kind(kind),
            tally.units.to_string(),
            tally.done.to_string(),
            tally.served.to_string(),
            told(tally.least_room),
        ]);
    }
    rows
}

/// By project: what it was served in a frame, against its budget.
pub fn project_rows(subject: &Subject, record: &Record) -> Vec<Vec<String>> {
    let mut rows = vec![[
        "project",
        "cells served",
        "budget",
        "most in a frame",
        "least in a frame",
    ]
    .map(str::to_string)
    .to_vec()];
    for (place, tally) in record.projects.iter().enumerate() {
        let budget = record
            .plan
            .project
            .get(place)
            .map_or(0, |project| project.budget);
        rows.push(vec![
            subject.names.short_project(place),
            tally.served.to_string(),
            budget.to_string(),
            told(tally.most),
            told(tally.least),
        ]);
    }
    rows
}

/// The fields of a run.
fn json(subject: &Subject, record: &Record) -> Json {
    let cards = usize::from(record.plan.cards);
    let kinds = record.kinds.iter().enumerate().map(|(kind, tally)| {
        Json::Object(vec![
            ("number", kind.into()),
            ("name", subject.names.of_kind(kind).into()),
            ("units", tally.units.into()),
            ("done", tally.done.into()),
            ("served", tally.served.into()),
            ("least_room", tally.least_room.into()),
        ])
    });
    let projects = record.projects.iter().enumerate().map(|(place, tally)| {
        let budget = record
            .plan
            .project
            .get(place)
            .map_or(0, |project| project.budget);
        Json::Object(vec![
            ("number", place.into()),
            ("name", subject.names.of_project(place).into()),
            ("budget", budget.into()),
            ("served", tally.served.into()),
            ("most_in_frame", tally.most.into()),
            ("least_in_frame", tally.least.into()),
        ])
    });
    let releases = record.releases.iter().map(|release| {
        Json::Object(vec![
            ("slice", release.at.into()),
            ("kind", release.kind.into()),
            ("length", release.length.into()),
            ("number", release.refused.into()),
        ])
    });
    let rows = record
        .rows
        .iter()
        .map(|row| row.iter().take(cards).copied().collect());
    Json::Object(vec![
        ("command", "run".into()),
        ("file", subject.source.as_str().into()),
        ("good", (record.refused == 0).into()),
        ("slices", record.slices.into()),
        ("frames", record.frames().into()),
        ("refused", record.refused.into()),
        ("kinds", Json::List(kinds.collect())),
        ("projects", Json::List(projects.collect())),
        ("releases", Json::List(releases.collect())),
        ("rows", Json::Rows(rows.collect())),
    ])
}
