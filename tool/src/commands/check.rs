//! `check`: the verdict in words and as a table, or all that is wrong.

use super::{colours, notes};
use crate::arguments::Given;
use crate::ending::{Ending, Outcome};
use crate::figures::{self, Figures, Width};
use crate::json::Json;
use crate::output;
use crate::subject::Subject;
use crate::words;

const HEAD: [&str; 12] = [
    "kind",
    "project",
    "T",
    "D",
    "C",
    "W",
    "k",
    "asks",
    "gets",
    "room",
    "longest",
    "bad slice",
];

/// What the columns are.
pub const LEGEND: &str = "\
T separation, D deadline, C length; W what the other kinds of the project add; k how many cards count at once;
asks kC + W, gets S(k,D), room what is left; longest the greatest C that would fit; bad slice the one to arrive in.
";

/// Answers it.
pub fn answer(given: &Given) -> Outcome<Ending> {
    let colours = colours(given)?;
    let subject = Subject::read(given.argument(0))?;
    let figures = figures::of(&subject.plan);
    let verdict = subject.plan.verdict();
    if given.has("--json") {
        output::print(
            json(&subject, &figures, given.has("--all-k"))
                .document()
                .as_bytes(),
        )?;
    } else {
        notes(&subject);
        let missing = figures
            .iter()
            .filter(|figures| figures.refused.is_some())
            .count();
        let said = match &verdict {
            Ok(_) => "admitted: every unit will be in time".to_string(),
            Err(answer) => format!(
                "not admitted ({}): {missing} of {} {} not fit",
                words::told(*answer),
                words::count(subject.kinds(), "kind", "kinds"),
                if missing == 1 { "does" } else { "do" }
            ),
        };
        let mut out = format!("{}: {}\n\n", subject.source, colours.strong(&said));
        out += &words::columns(&rows(&subject, &figures, given.has("--all-k")), 2);
        if missing > 0 {
            out.push('\n');
        }
        for answer in figures.iter().filter_map(|figures| figures.refused) {
            let place = subject.at(subject.line_of_kind(usize::from(answer.place)));
            let advice = words::advice(&subject.plan, &subject.names, answer);
            out += &format!("{place}: {advice}\n");
        }
        out += &format!("\n{LEGEND}");
        output::print(out.as_bytes())?;
    }
    Ok(match verdict {
        Ok(_) => Ending::Good,
        Err(_) => Ending::Refused,
    })
}

/// The table of a verdict, its head first.
pub fn rows(subject: &Subject, figures: &[Figures], all: bool) -> Vec<Vec<String>> {
    let mut rows = vec![HEAD.map(str::to_string).to_vec()];
    for one in figures {
        let shown: Vec<&Width> = match all {
            true => one.widths.iter().collect(),
            false => one.shown().into_iter().collect(),
        };
        for (at, width) in shown.into_iter().enumerate() {
            rows.push(row(subject, one, width, at == 0));
        }
    }
    rows
}

fn row(subject: &Subject, figures: &Figures, width: &Width, whole: bool) -> Vec<String> {
    let kind = subject
        .plan
        .kind
        .get(figures.kind)
        .copied()
        .unwrap_or_default();
    let fits = figures.fits.and_then(|place| figures.widths.get(place));
    // The least k that fits stands bare, and another in brackets.
    let k = match fits == Some(width) {
        true => width.k.to_string(),
        false => format!("({})", width.k),
    };
    let mut cells = vec![
        subject.names.short_kind(figures.kind),
        subject.names.short_project(usize::from(kind.project)),
        kind.separation.to_string(),
        kind.deadline.to_string(),
        kind.length.to_string(),
        figures.workload.to_string(),
    ];
    if !whole {
        cells.fill(String::new());
    }
    cells.extend([
        k,
        width.asks.to_string(),
        width.gets.to_string(),
        width.room().to_string(),
        if whole {
            figures.longest.to_string()
        } else {
            String::new()
        },
        width.slice.to_string(),
    ]);
    cells
}

/// The fields of a verdict.
pub fn json(subject: &Subject, figures: &[Figures], all: bool) -> Json {
    let verdict = subject.plan.verdict();
    let refused = verdict.err();
    let kinds = figures.iter().map(|one| {
        let kind = subject.plan.kind.get(one.kind).copied().unwrap_or_default();
        let shown = one.shown();
        let mut fields = vec![
            ("number", one.kind.into()),
            ("name", subject.names.of_kind(one.kind).into()),
            ("line", subject.line_of_kind(one.kind).into()),
            ("project", kind.project.into()),
            ("separation", kind.separation.into()),
            ("deadline", kind.deadline.into()),
            ("length", kind.length.into()),
            ("workload", one.workload.into()),
            ("fits", one.fits.is_some().into()),
            ("k", shown.map(|width| width.k).into()),
            ("asks", shown.map(|width| width.asks).into()),
            ("gets", shown.map(|width| width.gets).into()),
            ("room", shown.map(Width::room).into()),
            ("longest", one.longest.into()),
            (
                "excess",
                one.refused.map_or(0, |answer| answer.excess).into(),
            ),
            ("slice", shown.map(|width| width.slice).into()),
        ];
        if all {
            let each = one.widths.iter().map(|width| {
                Json::Object(vec![
                    ("k", width.k.into()),
                    ("asks", width.asks.into()),
                    ("gets", width.gets.into()),
                    ("room", width.room().into()),
                    ("slice", width.slice.into()),
                ])
            });
            fields.push(("all_k", Json::List(each.collect())));
        }
        if let Some(answer) = one.refused {
            fields.push((
                "advice",
                words::advice(&subject.plan, &subject.names, answer).into(),
            ));
        }
        Json::Object(fields)
    });
    let projects = (0..subject.projects()).map(|place| {
        let project = subject.plan.project.get(place).copied().unwrap_or_default();
        let smallest = subject.plan.smallest_budget(place as u64).ok();
        Json::Object(vec![
            ("number", place.into()),
            ("name", subject.names.of_project(place).into()),
            ("line", subject.line_of_project(place).into()),
            ("ceiling", project.ceiling.into()),
            ("budget", project.budget.into()),
            ("smallest_budget", smallest.into()),
        ])
    });
    Json::Object(vec![
        ("command", "check".into()),
        ("file", subject.source.as_str().into()),
        ("good", refused.is_none().into()),
        ("number", refused.map_or(0, |answer| answer.number).into()),
        ("place", refused.map_or(0, |answer| answer.place).into()),
        ("excess", refused.map_or(0, |answer| answer.excess).into()),
        ("slice", refused.map_or(0, |answer| answer.slice).into()),
        ("cards", subject.plan.cards.into()),
        ("frame", subject.plan.frame.into()),
        ("projects", Json::List(projects.collect())),
        ("kinds", Json::List(kinds.collect())),
        ("faults", Json::List(Vec::new())),
    ])
}
