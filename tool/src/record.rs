//! A run by the library, and what is counted of it: accepted slices are the axis of time.

use crate::ending::Outcome;
use crate::output;
use crate::progress::Progress;
use crate::script::Step;
use bindings::{Plan, State, MOST_ROW_BYTES};
use std::io::Write;

/// A row: kind number plus 1 for each card, or 0.
pub type Row = [u8; MOST_ROW_BYTES];

/// A release, accepted or not.
#[derive(Clone, Copy, Debug)]
pub struct Release {
    /// The kind.
    pub kind: u64,
    /// The length.
    pub length: u64,
    /// Before which slice.
    pub at: u64,
    /// The number of the refusal, or 0.
    pub refused: u8,
}

/// What is counted of a kind.
#[derive(Clone, Debug, Default)]
pub struct KindTally {
    /// Accepted units.
    pub units: u64,
    /// Slices served.
    pub served: u64,
    /// Units that have got all they asked for.
    pub done: u64,
    /// The least number of slices between a unit's end and its deadline.
    pub least_room: Option<u64>,
    /// The unit that is under way: its release and what is left of it.
    current: Option<(u64, u64)>,
}

/// What is counted of a project, in frames from the start.
#[derive(Clone, Debug, Default)]
pub struct ProjectTally {
    /// Cells served.
    pub served: u64,
    /// The most in a whole frame.
    pub most: Option<u64>,
    /// The least in a whole frame.
    pub least: Option<u64>,
    in_frame: u64,
}

/// A run.
#[derive(Clone, Debug)]
pub struct Record {
    /// The plan that was run.
    pub plan: Plan,
    /// Accepted slices.
    pub slices: u64,
    /// Releases, if they were kept.
    pub releases: Vec<Release>,
    /// Rows, if they were kept.
    pub rows: Vec<Row>,
    /// By kind.
    pub kinds: Vec<KindTally>,
    /// By project.
    pub projects: Vec<ProjectTally>,
    /// Calls that were refused.
    pub refused: u64,
}

/// Runs a fresh state by these steps; `play`'s lines go to the output where there is one.
pub fn run(
    fresh: State,
    steps: impl Iterator<Item = Step>,
    total: u64,
    keep: bool,
    lines: Option<&mut dyn Write>,
) -> Outcome<Record> {
    let mut progress = Progress::new(total);
    let mut runner = Runner {
        record: Record {
            plan: fresh.plan,
            slices: 0,
            releases: Vec::new(),
            rows: Vec::new(),
            kinds: vec![KindTally::default(); usize::from(fresh.plan.kinds)],
            projects: vec![ProjectTally::default(); usize::from(fresh.plan.projects)],
            refused: 0,
        },
        state: fresh,
        keep,
        lines,
    };
    runner.say("plan ok")?;
    'steps: for step in steps {
        match step {
            Step::Release(kind, length) => runner.release(kind, length)?,
            Step::Slices(count) => {
                for _ in 0..count {
                    if !runner.slice()? {
                        break 'steps;
                    }
                    progress.tell(runner.record.slices);
                }
            }
        }
    }
    let end = runner.record.clock();
    runner.say(&format!("end {end}"))?;
    Ok(runner.record)
}

struct Runner<'a> {
    record: Record,
    state: State,
    keep: bool,
    lines: Option<&'a mut dyn Write>,
}

impl Runner<'_> {
    fn say(&mut self, line: &str) -> Outcome<()> {
        match &mut self.lines {
            Some(lines) => output::done(writeln!(lines, "{line}")),
            None => Ok(()),
        }
    }

    fn release(&mut self, kind: u64, length: u64) -> Outcome<()> {
        let answer = self.state.release(kind, length);
        let refused = answer.err().map_or(0, |answer| answer.number);
        let at = self.record.slices;
        self.record.refused += u64::from(refused != 0);
        if self.keep {
            self.record.releases.push(Release {
                kind,
                length,
                at,
                refused,
            });
        }
        if refused == 0 {
            let tally = usize::try_from(kind)
                .ok()
                .and_then(|kind| self.record.kinds.get_mut(kind));
            if let Some(tally) = tally {
                tally.units += 1;
                tally.current = Some((at, length));
            }
        }
        match refused {
            0 => self.say(&format!("r {kind} {length} ok")),
            number => self.say(&format!("r {kind} {length} refused {number}")),
        }
    }

    /// One slice: shown, and then run. Whether it was accepted.
    fn slice(&mut self) -> Outcome<bool> {
        let mut row = [0; MOST_ROW_BYTES];
        let shown = self.state.show(&mut row);
        if let Err(answer) = shown.and_then(|()| self.state.advance()) {
            self.record.refused += 1;
            self.say(&format!("t refused {}", answer.number))?;
            return Ok(false);
        }
        if self.lines.is_some() {
            let mut line = format!("t {}:", self.record.clock());
            for byte in row.iter().take(usize::from(self.record.plan.cards)) {
                line += &format!(" {byte}");
            }
            self.say(&line)?;
        }
        self.record.count(&row);
        if self.keep {
            self.record.rows.push(row);
        }
        Ok(true)
    }
}

impl Record {
    /// The slice within the frame, which `play` prints as its clock.
    fn clock(&self) -> u64 {
        self.slices % u64::from(self.plan.frame)
    }

    /// Counts an accepted slice.
    fn count(&mut self, row: &Row) {
        self.slices += 1;
        for byte in row.iter().take(usize::from(self.plan.cards)) {
            let Some(kind) = usize::from(*byte).checked_sub(1) else {
                continue;
            };
            let (Some(tally), Some(about)) = (self.kinds.get_mut(kind), self.plan.kind.get(kind))
            else {
                continue;
            };
            tally.served += 1;
            if let Some((at, left)) = tally.current {
                let left = left.saturating_sub(1);
                tally.current = Some((at, left));
                if left == 0 {
                    tally.current = None;
                    tally.done += 1;
                    let room = (at + u64::from(about.deadline)).saturating_sub(self.slices);
                    tally.least_room = Some(tally.least_room.map_or(room, |least| least.min(room)));
                }
            }
            if let Some(project) = self.projects.get_mut(usize::from(about.project)) {
                project.served += 1;
                project.in_frame += 1;
            }
        }
        if self
            .slices
            .is_multiple_of(u64::from(self.plan.frame.max(1)))
        {
            for project in &mut self.projects {
                let served = std::mem::take(&mut project.in_frame);
                project.most = Some(project.most.map_or(served, |most| most.max(served)));
                project.least = Some(project.least.map_or(served, |least| least.min(served)));
            }
        }
    }

    /// Whole frames that were run.
    pub fn frames(&self) -> u64 {
        self.slices / u64::from(self.plan.frame.max(1))
    }
}

/// An accepted unit on the axis of slices.
#[derive(Clone, Copy, Debug)]
pub struct Unit {
    /// Its kind.
    pub kind: usize,
    /// Released before this slice.
    pub at: u64,
    /// The slices it asks for.
    pub length: u64,
    /// To be done before this slice.
    pub due: u64,
}

impl Record {
    /// The accepted units, where releases were kept.
    pub fn units(&self) -> Vec<Unit> {
        let accepted = self.releases.iter().filter(|release| release.refused == 0);
        let unit = |release: &Release| {
            let kind = usize::try_from(release.kind).ok()?;
            Some(Unit {
                kind,
                at: release.at,
                length: release.length,
                due: release.at + u64::from(self.plan.kind.get(kind)?.deadline),
            })
        };
        accepted.filter_map(unit).collect()
    }

    /// The project of a kind.
    pub fn project_of(&self, kind: usize) -> usize {
        let kind = self.plan.kind.get(kind);
        kind.map_or(0, |kind| usize::from(kind.project))
    }

    /// Whether a kind is served in a slice, where rows were kept.
    pub fn serves(&self, slice: u64, kind: usize) -> bool {
        let row = usize::try_from(slice)
            .ok()
            .and_then(|slice| self.rows.get(slice));
        row.is_some_and(|row| row.iter().any(|byte| usize::from(*byte) == kind + 1))
    }

    /// How many slices stand in one line of a chart: whole frames, at most 64.
    pub fn band(&self) -> u64 {
        let frame = u64::from(self.plan.frame.max(1));
        (64 / frame).max(1) * frame
    }
}
