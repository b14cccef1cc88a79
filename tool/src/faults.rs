//! The faults of a plan as text, all of them at once. What cannot be read is told by `text`; what the
//! rules refuse is told by the library, which is asked about each line in a plan where all else is in
//! order. Where the number of a line is no good, the most generous one stands in for it.

use crate::json::Json;
use crate::names::Names;
use crate::text::{Entry, Text};
use crate::words;
use bindings::{Kind, Plan, Project};

/// What a fault is about.
#[derive(Clone, Copy, Debug, PartialEq, Eq)]
pub enum About {
    /// The plan as a whole, or its counts.
    Plan,
    /// A project.
    Project(usize),
    /// A kind.
    Kind(usize),
}

/// One thing that is wrong.
#[derive(Clone, Debug)]
pub struct Fault {
    /// The line of the text that it stands on.
    pub line: Option<usize>,
    /// The number that the rules have for it; none where something cannot be read.
    pub number: Option<u8>,
    /// What it is about.
    pub about: About,
    /// What is wrong.
    pub words: String,
    /// What would help, if that is known.
    pub advice: Option<String>,
}

impl Fault {
    /// Something that cannot be read.
    pub fn unread(line: Option<usize>, about: About, words: String) -> Fault {
        Fault {
            line,
            number: None,
            about,
            words,
            advice: None,
        }
    }

    /// Something that the rules refuse.
    pub fn refused(line: Option<usize>, number: u8, about: About, words: String) -> Fault {
        Fault {
            line,
            number: Some(number),
            about,
            words,
            advice: None,
        }
    }

    /// Whether the rules refuse it, so that it could be read.
    pub fn is_refusal(&self) -> bool {
        self.number.is_some()
    }

    /// The place that the rules give.
    pub fn place(&self) -> usize {
        match self.about {
            About::Plan => 0,
            About::Project(place) | About::Kind(place) => place,
        }
    }

    /// As the error stream has it.
    pub fn line(&self, source: &str) -> String {
        let line = self.line.map_or(String::new(), |line| format!(":{line}"));
        format!("{source}{line}: {}", self.sentence())
    }

    /// What is wrong, the number and what would help.
    pub fn sentence(&self) -> String {
        let number = self.number.map_or(String::new(), |number| {
            format!(" (refused {number} at {})", self.place())
        });
        let advice = self
            .advice
            .as_ref()
            .map_or(String::new(), |advice| format!("; {advice}"));
        format!("{}{number}{advice}", self.words)
    }

    /// The fields of a fault.
    pub fn json(&self) -> Json {
        let (project, kind) = match self.about {
            About::Plan => (None, None),
            About::Project(place) => (Some(place), None),
            About::Kind(place) => (None, Some(place)),
        };
        Json::Object(vec![
            ("line", self.line.into()),
            ("number", self.number.into()),
            ("project", project.into()),
            ("kind", kind.into()),
            ("words", self.words.as_str().into()),
            ("advice", self.advice.clone().into()),
        ])
    }
}

/// The most of the rules, for what stands in.
const CARDS: u8 = 8;
const FRAME: u8 = 64;
const SEPARATION: u64 = 4095;

/// A plan in order, the least there is, for so many cards and slices.
fn least(cards: u8, frame: u8) -> Plan {
    let mut plan = Plan {
        cards,
        frame,
        projects: 1,
        kinds: 1,
        ..Plan::default()
    };
    plan.project[0] = Project {
        ceiling: 1,
        budget: 1,
    };
    plan.kind[0] = LEAST;
    plan
}

/// The least kind.
const LEAST: Kind = Kind {
    project: 0,
    separation: 1,
    deadline: 1,
    length: 1,
};

/// Whether the library refuses this plan with this number.
fn refused(plan: &Plan, number: u8) -> bool {
    plan.check().is_err_and(|answer| answer.number == number)
}

/// A number too wide for the record is as much out of range as the widest that fits.
fn byte(number: u64) -> u8 {
    u8::try_from(number).unwrap_or(u8::MAX)
}

fn two_bytes(number: u64) -> u16 {
    u16::try_from(number).unwrap_or(u16::MAX)
}

/// The record of a text without faults, with 0 for a budget that is left open.
pub fn record(text: &Text) -> Plan {
    let once = |entry: &Option<Entry<1>>| {
        byte(
            entry
                .as_ref()
                .and_then(|entry| entry.number(0))
                .unwrap_or(0),
        )
    };
    let mut plan = Plan {
        cards: once(&text.cards),
        frame: once(&text.frame),
        projects: byte(text.projects.len() as u64),
        kinds: byte(text.kinds.len() as u64),
        ..Plan::default()
    };
    for (place, entry) in plan.project.iter_mut().zip(&text.projects) {
        *place = project_of(entry);
    }
    for (place, entry) in plan.kind.iter_mut().zip(&text.kinds) {
        *place = kind_of(entry);
    }
    plan
}

fn project_of(entry: &Entry<2>) -> Project {
    Project {
        ceiling: byte(entry.number(0).unwrap_or(0)),
        budget: two_bytes(entry.number(1).unwrap_or(0)),
    }
}

fn kind_of(entry: &Entry<4>) -> Kind {
    let number = |field| two_bytes(entry.number(field).unwrap_or(0));
    Kind {
        project: byte(entry.number(0).unwrap_or(0)),
        separation: number(1),
        deadline: number(2),
        length: number(3),
    }
}

/// All that is wrong with a text, in the order of its lines.
pub fn of(text: &Text) -> Vec<Fault> {
    let mut judge = Judge::new(text);
    judge.counts();
    for (place, entry) in text.projects.iter().enumerate() {
        judge.project(place, entry);
    }
    judge.sum();
    for (place, entry) in text.kinds.iter().enumerate() {
        judge.kind(place, entry);
    }
    judge.advise();
    let mut faults = judge.faults;
    faults.extend(text.faults.iter().cloned());
    faults.sort_by_key(|fault| fault.line.unwrap_or(usize::MAX));
    faults
}

/// What is asked about, with what stands in for counts that are no good.
struct Judge<'a> {
    text: &'a Text,
    names: Names,
    cards: u8,
    frame: u8,
    faults: Vec<Fault>,
}

impl<'a> Judge<'a> {
    fn new(text: &'a Text) -> Judge<'a> {
        Judge {
            text,
            names: text.names(),
            cards: CARDS,
            frame: FRAME,
            faults: Vec::new(),
        }
    }

    fn tell(&mut self, line: Option<usize>, number: u8, about: About, words: String) {
        let words = match about {
            About::Plan => words,
            About::Project(place) => format!("{}: {words}", self.names.project(place)),
            About::Kind(place) => format!("{}: {words}", self.names.kind(place)),
        };
        self.faults.push(Fault::refused(line, number, about, words));
    }

    /// 2, by its four reasons.
    fn counts(&mut self) {
        if let Some(entry) = &self.text.cards {
            if let Some(number) = entry.number(0) {
                match refused(&least(byte(number), 1), 2) {
                    true => {
                        let words = format!("cards {} is not 1 to {CARDS}", entry.word(0));
                        self.tell(Some(entry.line), 2, About::Plan, words);
                    }
                    false => self.cards = byte(number),
                }
            }
        }
        if let Some(entry) = &self.text.frame {
            if let Some(number) = entry.number(0) {
                match refused(&least(1, byte(number)), 2) {
                    true => {
                        let words = format!("frame {} is not 1 to {FRAME}", entry.word(0));
                        self.tell(Some(entry.line), 2, About::Plan, words);
                    }
                    false => self.frame = byte(number),
                }
            }
        }
        let (projects, kinds) = (self.text.projects.len(), self.text.kinds.len());
        let mut plan = least(CARDS, FRAME);
        plan.projects = byte(projects as u64);
        plan.project = plan.project.map(|_| Project {
            ceiling: 1,
            budget: 1,
        });
        if refused(&plan, 2) {
            self.tell(
                None,
                2,
                About::Plan,
                format!("there are {projects} projects, not 1 to 8"),
            );
        }
        let mut plan = least(CARDS, FRAME);
        plan.kinds = byte(kinds as u64);
        plan.kind = plan.kind.map(|_| LEAST);
        if refused(&plan, 2) {
            self.tell(
                None,
                2,
                About::Plan,
                format!("there are {kinds} kinds, not 1 to 16"),
            );
        }
    }

    /// 4, by its two reasons.
    fn project(&mut self, place: usize, entry: &Entry<2>) {
        let about = About::Project(place);
        let (cards, frame) = (self.cards, self.frame);
        let with = |ceiling: u8, budget: u16| {
            let mut plan = least(cards, frame);
            plan.project[0] = Project { ceiling, budget };
            plan
        };
        let mut ceiling = cards;
        if let Some(number) = entry.number(0) {
            match refused(&with(byte(number), 1), 4) {
                true => {
                    let words = format!("ceiling {} is not 1 to {cards}, the cards", entry.word(0));
                    self.tell(Some(entry.line), 4, about, words);
                }
                false => ceiling = byte(number),
            }
        }
        if let Some(number) = entry.number(1) {
            if refused(&with(ceiling, two_bytes(number)), 4) {
                let most = u32::from(ceiling) * u32::from(frame);
                let words = format!(
                    "budget {} is not 1 to {most}, the ceiling times the frame",
                    entry.word(1)
                );
                self.tell(Some(entry.line), 4, about, words);
            }
        }
    }

    /// 5, and 6 by its three reasons.
    fn kind(&mut self, place: usize, entry: &Entry<4>) {
        let about = About::Kind(place);
        let line = Some(entry.line);
        let mut plan = least(CARDS, FRAME);
        let projects = self.text.projects.len();
        plan.projects = byte(projects as u64).clamp(1, 8);
        for project in plan.project.iter_mut().take(projects.max(1)) {
            *project = Project {
                ceiling: 1,
                budget: 1,
            };
        }
        let kind = kind_of(entry);
        if let Some(number) = entry.number(0) {
            plan.kind[0].project = kind.project;
            // Where there are too many projects, those beyond the last that counts are there all the same.
            if refused(&plan, 5) && number >= projects as u64 {
                let words = format!("there is no project {}", entry.word(0));
                self.tell(line, 5, about, words);
            }
            plan.kind[0].project = 0;
        }
        let mut most = format!("{SEPARATION}");
        plan.kind[0].separation = two_bytes(SEPARATION);
        if let Some(number) = entry.number(1) {
            plan.kind[0].separation = kind.separation;
            match refused(&plan, 6) {
                true => {
                    plan.kind[0].separation = two_bytes(SEPARATION);
                    self.tell(
                        line,
                        6,
                        about,
                        format!("separation {} is not 1 to {most}", entry.word(1)),
                    );
                }
                false => most = format!("{number}, the separation"),
            }
        }
        plan.kind[0].deadline = plan.kind[0].separation;
        if let Some(number) = entry.number(2) {
            plan.kind[0].deadline = kind.deadline;
            match refused(&plan, 6) {
                true => {
                    plan.kind[0].deadline = plan.kind[0].separation;
                    self.tell(
                        line,
                        6,
                        about,
                        format!("deadline {} is not 1 to {most}", entry.word(2)),
                    );
                }
                false => most = format!("{number}, the deadline"),
            }
        }
        if entry.number(3).is_some() {
            plan.kind[0].length = kind.length;
            if refused(&plan, 6) {
                self.tell(
                    line,
                    6,
                    about,
                    format!("length {} is not 1 to {most}", entry.word(3)),
                );
            }
        }
    }

    /// 7, where all that it speaks of is in order.
    fn sum(&mut self) {
        let read = |entry: &Entry<2>| entry.number(0).is_some() && entry.number(1).is_some();
        let known = |entry: &Option<Entry<1>>| {
            entry
                .as_ref()
                .is_some_and(|entry| entry.number(0).is_some())
        };
        let all = known(&self.text.cards)
            && known(&self.text.frame)
            && self.text.projects.iter().all(read);
        if !all || !self.faults.is_empty() {
            return;
        }
        let mut plan = record(self.text);
        plan.kinds = 1;
        plan.kind = Default::default();
        plan.kind[0] = LEAST;
        if refused(&plan, 7) {
            let sum: u64 = self
                .text
                .projects
                .iter()
                .filter_map(|entry| entry.number(1))
                .sum();
            let cells = u32::from(self.cards) * u32::from(self.frame);
            let words =
                format!("the budgets sum to {sum}, above {cells}, the cards times the frame");
            self.tell(None, 7, About::Plan, words);
        }
    }

    /// Where only a budget is refused, the smallest that serves is told as well.
    fn advise(&mut self) {
        if !self.text.faults.is_empty() {
            return;
        }
        let plan = record(self.text);
        for fault in &mut self.faults {
            match (fault.number, fault.about) {
                (Some(4), About::Project(place)) => {
                    fault.advice = words::smallest(&plan, &self.names, place);
                }
                (Some(7), _) => {
                    // Each project that fits in with a smaller budget.
                    let places = 0..usize::from(plan.projects);
                    let fitting =
                        places.filter(|place| plan.smallest_budget(*place as u64).is_ok());
                    let each =
                        fitting.filter_map(|place| words::smallest(&plan, &self.names, place));
                    let each: Vec<String> = each.collect();
                    fault.advice = (!each.is_empty()).then(|| each.join("; "));
                }
                _ => {}
            }
        }
    }
}

#[cfg(test)]
mod tests {
    use super::*;

    /// What the words say is out of range the library refuses, and the number beside it it takes.
    #[test]
    fn the_limits_in_words_are_the_librarys() {
        let text = |cards: u64, frame: u64, projects: usize, kinds: usize, separation: u64| {
            let mut text = format!("cards {cards}\nframe {frame}\n");
            text += &"project ceiling 1 budget 1\n".repeat(projects);
            text += &format!("kind project 0 separation {separation} deadline 1 length 1\n")
                .repeat(kinds);
            of(&Text::of(text.as_bytes()))
                .into_iter()
                .map(|fault| fault.words)
                .collect::<Vec<_>>()
        };
        assert!(text(8, 64, 8, 16, 4095).is_empty());
        assert!(text(1, 1, 1, 1, 1).is_empty());
        assert_eq!(text(9, 64, 8, 16, 4095), ["cards 9 is not 1 to 8"]);
        assert_eq!(text(8, 65, 8, 16, 4095), ["frame 65 is not 1 to 64"]);
        assert_eq!(
            text(8, 64, 9, 16, 4095),
            ["there are 9 projects, not 1 to 8"]
        );
        assert_eq!(
            text(8, 64, 8, 17, 4095),
            ["there are 17 kinds, not 1 to 16"]
        );
        assert_eq!(
            text(8, 64, 8, 1, 4096),
            ["kind 0: separation 4096 is not 1 to 4095"]
        );
        assert_eq!(text(0, 1, 1, 1, 1), ["cards 0 is not 1 to 8"]);
        assert_eq!(text(1, 0, 1, 1, 1), ["frame 0 is not 1 to 64"]);
        assert_eq!(
            text(1, 1, 1, 1, 0),
            ["kind 0: separation 0 is not 1 to 4095"]
        );
    }
}
