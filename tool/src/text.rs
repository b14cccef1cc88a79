//! A plan as text that a coordinator can write.
//!
//! ```text
//! cards 2
//! frame 4
//! project folding ceiling 1 budget 3
//! project docking ceiling 2 budget 5
//! kind fold-a project folding separation 8 deadline 8 length 6    # a comment
//! ```
//!
//! One thing a line, in any order; blank lines, and what follows a `#`, are passed by. `cards` and
//! `frame` stand once each. Projects and kinds are numbered from 0 in the order of their lines, and may
//! have a name before their fields; the fields of a line may stand in any order, each once. A kind names
//! its project by name or number. One project may have `budget ?`: the smallest that serves it.
//!
//! What cannot be read is a fault, and reading goes on behind it.

use crate::faults::{About, Fault};
use crate::names::{not_a_name, number, shown, Names};
use bindings::Plan;
use std::ops::Range;

/// The fields of a project's line.
pub const PROJECT_FIELDS: [&str; 2] = ["ceiling", "budget"];
/// The fields of a kind's line.
pub const KIND_FIELDS: [&str; 4] = ["project", "separation", "deadline", "length"];

/// What a field's word says.
#[derive(Clone, Copy, Debug, PartialEq, Eq)]
pub enum Meaning {
    /// A number, at most the largest of 64 bits.
    Number(u64),
    /// `?`: to be found.
    Open,
    /// Nothing that can be read; there is a fault for it.
    Unread,
}

/// The word of a field.
#[derive(Clone, Debug)]
pub struct Value {
    /// As it stands there.
    pub word: String,
    /// Where it stands in its line.
    at: Range<usize>,
    /// What it says.
    pub meaning: Meaning,
}

/// A line of a plan.
#[derive(Clone, Debug)]
pub struct Entry<const N: usize> {
    /// The number of the line, from 1.
    pub line: usize,
    /// The name that it gives, where it gives one.
    name: Option<String>,
    /// The words of its fields, where they are there.
    pub values: [Option<Value>; N],
}

impl<const N: usize> Entry<N> {
    /// The number of a field, where it can be read.
    pub fn number(&self, field: usize) -> Option<u64> {
        match self.values.get(field)?.as_ref()?.meaning {
            Meaning::Number(number) => Some(number),
            _ => None,
        }
    }

    /// The word of a field.
    pub fn word(&self, field: usize) -> String {
        let value = self.values.get(field).and_then(Option::as_ref);
        value.map_or(String::new(), |value| shown(&value.word))
    }

    /// Whether a field is left open.
    pub fn is_open(&self, field: usize) -> bool {
        let value = self.values.get(field).and_then(Option::as_ref);
        value.is_some_and(|value| value.meaning == Meaning::Open)
    }
}

/// The lines of a plan, before anything is said about their numbers.
#[derive(Clone, Debug, Default)]
pub struct Text {
    lines: Vec<String>,
    /// How many cards.
    pub cards: Option<Entry<1>>,
    /// The slices of a frame.
    pub frame: Option<Entry<1>>,
    /// The projects, in their order.
    pub projects: Vec<Entry<2>>,
    /// The kinds, in their order.
    pub kinds: Vec<Entry<4>>,
    /// What cannot be read.
    pub faults: Vec<Fault>,
}

impl Text {
    /// The text of these bytes.
    pub fn of(bytes: &[u8]) -> Text {
        let mut text = Text::default();
        // Some editors put this mark before a text.
        let bytes = bytes.strip_prefix(b"\xEF\xBB\xBF").unwrap_or(bytes);
        for (at, bytes) in bytes.split(|&byte| byte == b'\n').enumerate() {
            let line = String::from_utf8_lossy(bytes).into_owned();
            match std::str::from_utf8(bytes) {
                Ok(words) => text.take(at + 1, words),
                Err(_) => text.fault(at + 1, "this is not text".to_string()),
            }
            text.lines.push(line);
        }
        for (entry, name) in [(&text.cards, "cards"), (&text.frame, "frame")] {
            if entry.is_none() {
                let words = format!("there is no `{name}` line");
                text.faults.push(Fault::unread(None, About::Plan, words));
            }
        }
        text.names_once();
        text.projects_of_kinds();
        text.one_open();
        text
    }

    /// The names of its projects and kinds.
    pub fn names(&self) -> Names {
        Names {
            projects: self
                .projects
                .iter()
                .map(|entry| entry.name.clone())
                .collect(),
            kinds: self.kinds.iter().map(|entry| entry.name.clone()).collect(),
        }
    }

    /// The project whose budget is left open.
    pub fn open(&self) -> Option<usize> {
        self.projects.iter().position(|entry| entry.is_open(1))
    }

    fn fault(&mut self, line: usize, words: String) {
        self.faults
            .push(Fault::unread(Some(line), About::Plan, words));
    }

    /// Takes a line.
    fn take(&mut self, line: usize, text: &str) {
        let words = words_of(text);
        let Some((first, rest)) = words.split_first() else {
            return;
        };
        match first.text {
            "cards" | "frame" => self.take_once(line, first.text, rest),
            "project" => {
                let entry = self.entry(line, first.text, PROJECT_FIELDS, rest);
                self.projects.push(entry);
            }
            "kind" => {
                let entry = self.entry(line, first.text, KIND_FIELDS, rest);
                self.kinds.push(entry);
            }
            other => self.fault(
                line,
                format!(
                    "`{}` is not known; a line starts with `cards`, `frame`, `project` or `kind`",
                    shown(other)
                ),
            ),
        }
    }

    /// A line of one number that stands once.
    fn take_once(&mut self, line: usize, name: &str, rest: &[Word]) {
        let before = if name == "cards" {
            &self.cards
        } else {
            &self.frame
        };
        if let Some(before) = before {
            let before = before.line;
            return self.fault(line, format!("`{name}` was said on line {before} already"));
        }
        let value = match rest {
            [word] => Some(self.value(line, name, word)),
            _ => {
                self.fault(line, format!("`{name}` is followed by one number"));
                None
            }
        };
        let entry = Some(Entry {
            line,
            name: None,
            values: [value],
        });
        match name {
            "cards" => self.cards = entry,
            _ => self.frame = entry,
        }
    }

    /// A name where there is one, and the fields of a line: a word each, in any order, each once.
    fn entry<const N: usize>(
        &mut self,
        line: usize,
        what: &str,
        fields: [&str; N],
        rest: &[Word],
    ) -> Entry<N> {
        let all = fields.map(|field| format!("`{field}`")).join(", ");
        let mut entry = Entry {
            line,
            name: None,
            values: [const { None }; N],
        };
        let is_field = |word: &Word| fields.contains(&word.text);
        let mut rest = rest;
        if let Some((first, others)) = rest.split_first().filter(|(first, _)| !is_field(first)) {
            rest = others;
            match not_a_name(first.text) {
                None => entry.name = Some(first.text.to_string()),
                Some(why) => self.fault(line, format!("`{}` is no name: {why}", shown(first.text))),
            }
        }
        while let Some((field, others)) = rest.split_first() {
            rest = others;
            let value = others.first().filter(|word| !is_field(word));
            if value.is_some() {
                rest = others.get(1..).unwrap_or_default();
            }
            let place = fields.iter().position(|name| *name == field.text);
            let Some(slot) = place.and_then(|place| entry.values.get_mut(place)) else {
                let field = shown(field.text);
                self.fault(
                    line,
                    format!("`{field}` is not known here; a {what} has {all}, each with a number"),
                );
                continue;
            };
            let name = field.text;
            match value {
                None => self.fault(line, format!("`{name}` has no number")),
                Some(_) if slot.is_some() => self.fault(line, format!("`{name}` is said twice")),
                Some(word) => *slot = Some(self.value(line, name, word)),
            }
            // What is missing is told once.
            slot.get_or_insert(Value {
                word: String::new(),
                at: field.at.clone(),
                meaning: Meaning::Unread,
            });
        }
        for (field, value) in fields.iter().zip(&entry.values) {
            if value.is_none() {
                self.fault(line, format!("`{field}` is missing; a {what} has {all}"));
            }
        }
        entry
    }

    /// The word of a field. A project's name is looked for when all are known.
    fn value(&mut self, line: usize, field: &str, word: &Word) -> Value {
        let meaning = match number(word.text) {
            Some(number) => Meaning::Number(number),
            None if field == "budget" && word.text == "?" => Meaning::Open,
            None if field == "project" && not_a_name(word.text).is_none() => Meaning::Unread,
            None => {
                self.fault(
                    line,
                    format!("`{}` is not a whole number", shown(word.text)),
                );
                Meaning::Unread
            }
        };
        Value {
            word: word.text.to_string(),
            at: word.at.clone(),
            meaning,
        }
    }

    /// No two projects and no two kinds have one name.
    fn names_once(&mut self) {
        let projects = self
            .projects
            .iter()
            .map(|entry| (entry.line, entry.name.as_deref()));
        let kinds = self
            .kinds
            .iter()
            .map(|entry| (entry.line, entry.name.as_deref()));
        let lists: [(&str, Vec<_>); 2] =
            [("project", projects.collect()), ("kind", kinds.collect())];
        let mut found = Vec::new();
        for (what, list) in &lists {
            for (at, (line, name)) in list.iter().enumerate() {
                let before = list
                    .iter()
                    .take(at)
                    .find(|(_, other)| name.is_some() && other == name);
                if let (Some(name), Some((other, _))) = (name, before) {
                    found.push((
                        *line,
                        format!("the {what} on line {other} is called `{name}` already"),
                    ));
                }
            }
        }
        for (line, words) in found {
            self.fault(line, words);
        }
    }

    /// The numbers of the projects that kinds name.
    fn projects_of_kinds(&mut self) {
        let names = self.names();
        let mut unknown = Vec::new();
        for entry in &mut self.kinds {
            let Some(value) = entry.values.first_mut().and_then(Option::as_mut) else {
                continue;
            };
            if value.meaning != Meaning::Unread || not_a_name(&value.word).is_some() {
                continue;
            }
            match names.project_of(&value.word) {
                Some(number) => value.meaning = Meaning::Number(number),
                None => unknown.push((
                    entry.line,
                    format!("no project is called `{}`", shown(&value.word)),
                )),
            }
        }
        for (line, words) in unknown {
            self.fault(line, words);
        }
    }

    /// One budget may be left open.
    fn one_open(&mut self) {
        let open = self.projects.iter().filter(|entry| entry.is_open(1));
        let lines: Vec<usize> = open.map(|entry| entry.line).collect();
        if let Some((first, others)) = lines.split_first() {
            for line in others {
                self.fault(
                    *line,
                    format!("the budget on line {first} is left open already"),
                );
            }
        }
    }

    /// This text with the numbers of another plan: names, comments and the layout of lines stay; lines of
    /// places that the plan does not have are left out, and those of further places are added.
    pub fn with(&self, plan: &Plan) -> String {
        let mut lines: Vec<Option<String>> = self.lines.iter().cloned().map(Some).collect();
        let mut change = |line: usize, changes: Option<Vec<(Range<usize>, String)>>| {
            if let Some(place) = line.checked_sub(1).and_then(|at| lines.get_mut(at)) {
                *place = changes
                    .and_then(|changes| place.as_deref().map(|text| replaced(text, changes)));
            }
        };
        for (entry, number) in [(&self.cards, plan.cards), (&self.frame, plan.frame)] {
            if let Some(entry) = entry {
                change(entry.line, Some(changes(entry, [u64::from(number)])));
            }
        }
        for (place, entry) in self.projects.iter().enumerate() {
            let numbers = project_numbers(plan, place);
            change(entry.line, numbers.map(|numbers| changes(entry, numbers)));
        }
        for (place, entry) in self.kinds.iter().enumerate() {
            let numbers = kind_numbers(plan, place);
            change(entry.line, numbers.map(|numbers| changes(entry, numbers)));
        }
        let mut lines: Vec<String> = lines.into_iter().flatten().collect();
        let ended = lines.last().is_some_and(String::is_empty);
        let at = if ended { lines.len() - 1 } else { lines.len() };
        let more_projects = (self.projects.len()..usize::from(plan.projects))
            .filter_map(|place| project_line(plan, place));
        let more_kinds =
            (self.kinds.len()..usize::from(plan.kinds)).filter_map(|place| kind_line(plan, place));
        let more: Vec<String> = more_projects.chain(more_kinds).collect();
        lines.splice(at..at, more);
        lines.join("\n")
    }
}

/// The numbers of a project's line, where the plan has that place.
pub fn project_numbers(plan: &Plan, place: usize) -> Option<[u64; 2]> {
    let project = plan.project.get(place)?;
    let numbers = [u64::from(project.ceiling), u64::from(project.budget)];
    (place < usize::from(plan.projects)).then_some(numbers)
}

/// The numbers of a kind's line, where the plan has that place.
pub fn kind_numbers(plan: &Plan, place: usize) -> Option<[u64; 4]> {
    let kind = plan.kind.get(place)?;
    let numbers = [
        u64::from(kind.project),
        u64::from(kind.separation),
        u64::from(kind.deadline),
        u64::from(kind.length),
    ];
    (place < usize::from(plan.kinds)).then_some(numbers)
}

/// A project as a line.
pub fn project_line(plan: &Plan, place: usize) -> Option<String> {
    project_numbers(plan, place).map(|numbers| line_of("project", PROJECT_FIELDS, numbers))
}

/// A kind as a line.
pub fn kind_line(plan: &Plan, place: usize) -> Option<String> {
    kind_numbers(plan, place).map(|numbers| line_of("kind", KIND_FIELDS, numbers))
}

fn line_of<const N: usize>(what: &str, fields: [&str; N], numbers: [u64; N]) -> String {
    let mut line = what.to_string();
    for (field, number) in fields.iter().zip(numbers) {
        line += &format!(" {field} {number}");
    }
    line
}

/// What to write where, so that an entry says these numbers.
fn changes<const N: usize>(entry: &Entry<N>, numbers: [u64; N]) -> Vec<(Range<usize>, String)> {
    let mut changes = Vec::new();
    for (value, number) in entry.values.iter().zip(numbers) {
        if let Some(value) = value {
            if value.meaning != Meaning::Number(number) {
                changes.push((value.at.clone(), number.to_string()));
            }
        }
    }
    changes
}

/// A line with some of its words replaced; where there is room, the comment stays in its column.
fn replaced(line: &str, mut changes: Vec<(Range<usize>, String)>) -> String {
    let mut line = line.to_string();
    let before = line.len();
    changes.sort_by_key(|(at, _)| std::cmp::Reverse(at.start));
    for (at, word) in changes {
        if line.get(at.clone()).is_some() {
            line.replace_range(at, &word);
        }
    }
    let Some(comment) = line.find('#') else {
        return line;
    };
    let words = line
        .get(..comment)
        .map_or(0, |words| words.trim_end().len());
    let spaces = comment - words;
    if spaces > 1 {
        let wanted = (spaces + before).saturating_sub(line.len()).max(1);
        line.replace_range(words..comment, &" ".repeat(wanted));
    }
    line
}

/// A word of a line, and where it stands.
pub struct Word<'a> {
    /// The word.
    pub text: &'a str,
    at: Range<usize>,
}

/// The words of a line before its comment.
pub fn words_of(line: &str) -> Vec<Word<'_>> {
    let line = line.split('#').next().unwrap_or("");
    let mut words = Vec::new();
    let mut rest = 0;
    for text in line.split_whitespace() {
        let found = line.get(rest..).and_then(|behind| behind.find(text));
        let start = rest + found.unwrap_or(0);
        rest = start + text.len();
        words.push(Word {
            text,
            at: start..rest,
        });
    }
    words
}
