//! Medians of turns that go round the sides, and tables of them.

use std::time::{Duration, Instant};

/// Turns of each side.
pub const TURNS: usize = 41;
/// Turns of each side where one call fills a turn.
pub const FEW_TURNS: usize = 7;
/// A turn repeats its call for about so long: short, so that most turns are not interrupted.
const TURN: Duration = Duration::from_millis(1);

/// The sides, in the order of their columns.
pub const SIDES: [&str; 3] = ["proved", "second", "tuned"];

/// One line of a table: nanoseconds for each side.
pub struct Row {
    /// What was timed.
    pub name: String,
    /// In the order of `SIDES`.
    pub ns: [f64; 3],
}

impl Row {
    /// The same as a share of `count`, under another name.
    pub fn per(&self, name: String, count: u64) -> Row {
        Row {
            name,
            ns: self.ns.map(|ns| ns / count as f64),
        }
    }
}

/// The median time of one call on each side; the sides take turns.
pub fn medians(name: String, mut sides: [&mut dyn FnMut(); 3]) -> Row {
    let turn = |side: &mut dyn FnMut(), calls: u32| {
        let start = Instant::now();
        for _ in 0..calls {
            side();
        }
        start.elapsed()
    };
    // As many calls as a turn has room for, found by doubling.
    let mut calls = [1u32; 3];
    for (side, calls) in sides.iter_mut().zip(&mut calls) {
        while turn(side, *calls) < TURN / 2 && *calls < 1 << 24 {
            *calls *= 2;
        }
    }
    let turns = if calls.contains(&1) { FEW_TURNS } else { TURNS };
    let mut times = [const { Vec::new() }; 3];
    for _ in 0..turns {
        for at in 0..sides.len() {
            let elapsed = turn(sides[at], calls[at]);
            times[at].push(elapsed.as_nanos() as f64 / f64::from(calls[at]));
        }
    }
    let ns = times.map(|mut times| {
        times.sort_by(f64::total_cmp);
        times[turns / 2]
    });
    Row { name, ns }
}

/// Three figures, however large or small.
pub fn three_figures(value: f64) -> String {
    let digits = match value {
        v if v >= 100.0 => 0,
        v if v >= 10.0 => 1,
        v if v >= 1.0 => 2,
        _ => 3,
    };
    format!("{value:.digits$}")
}

enum Line {
    Alone(Row),
    /// With its growth against the line before.
    Grown(Row),
    Gap,
}

/// A table of rows, printed at once.
pub struct Table {
    title: &'static str,
    lines: Vec<Line>,
}

impl Table {
    /// An empty table.
    pub fn new(title: &'static str) -> Table {
        Table {
            title,
            lines: Vec::new(),
        }
    }

    /// A row of its own.
    pub fn add(&mut self, row: Row) {
        self.lines.push(Line::Alone(row));
    }

    /// Rows that are told with their growth, each against the row before.
    pub fn add_grown(&mut self, rows: impl IntoIterator<Item = Row>) {
        self.lines.extend(rows.into_iter().map(Line::Grown));
        self.lines.push(Line::Gap);
    }

    /// The rows.
    pub fn rows(&self) -> impl Iterator<Item = &Row> {
        self.lines.iter().filter_map(|line| match line {
            Line::Alone(row) | Line::Grown(row) => Some(row),
            Line::Gap => None,
        })
    }

    /// Plain text, in columns.
    pub fn print(&self) {
        println!("\n{}", self.title);
        let heading = SIDES.map(|name| format!("{:>11}", format!("{name} ns")));
        print!("{:<42}{}", "", heading.join(""));
        print!("{:>15}{:>14}", "second/proved", "proved/tuned");
        let grows = self.lines.iter().any(|line| matches!(line, Line::Grown(_)));
        println!("{}", if grows { "  growth: proved tuned" } else { "" });
        let mut before: Option<&Row> = None;
        for line in &self.lines {
            let (row, grown) = match line {
                Line::Alone(row) => (row, false),
                Line::Grown(row) => (row, true),
                Line::Gap => {
                    before = None;
                    continue;
                }
            };
            let [proved, second, tuned] = row.ns;
            print!("{:<42}{proved:>11.0}{second:>11.0}{tuned:>11.0}", row.name);
            print!(
                "{:>15}{:>14}",
                three_figures(second / proved),
                three_figures(proved / tuned)
            );
            if let (true, Some(before)) = (grown, before) {
                let [of_proved, _, of_tuned] = [0, 1, 2].map(|at| row.ns[at] / before.ns[at]);
                print!("{of_proved:>16.2}{of_tuned:>6.2}");
            }
            println!();
            before = Some(row);
        }
    }
}
