//! The plan that a command is about: from text or from plan bytes, told apart by their content.

use crate::ending::{Outcome, Trouble};
use crate::faults::{self, About, Fault};
use crate::input::{self, Source};
use crate::json::Json;
use crate::names::Names;
use crate::text::Text;
use crate::words;
use bindings::{in_words, Answer, Plan};
use std::ffi::OsStr;
use std::path::Path;

/// A plan in order, and where it comes from.
pub struct Subject {
    /// The file's name.
    pub source: String,
    /// The plan.
    pub plan: Plan,
    /// What its projects and kinds are called.
    pub names: Names,
    /// The text that it was written as, if it was.
    pub text: Option<Text>,
    /// The bytes that follow plan bytes.
    pub rest: usize,
    /// What was found for a budget that was left open.
    pub found: Option<String>,
}

/// Whether this is a text and no plan bytes. Bytes that the library reads as one whole plan are a plan;
/// of anything else, a text has no zero and few bytes that no text has.
pub fn is_text(bytes: &[u8]) -> bool {
    if Plan::read(bytes).is_ok_and(|(_, taken)| taken == bytes.len()) {
        return false;
    }
    let control = |byte: u8| byte < b' ' && !matches!(byte, b'\t' | b'\n' | b'\r');
    let mut odd = bytes.iter().filter(|byte| control(**byte)).count();
    for chunk in bytes.utf8_chunks() {
        odd += chunk.invalid().len();
    }
    !bytes.contains(&0) && odd * 16 <= bytes.len()
}

impl Subject {
    /// Reads the plan of a file, or of the standard input.
    pub fn read(file: &OsStr) -> Outcome<Subject> {
        Subject::of(input::read(file)?)
    }

    /// The plan of these bytes, or what is wrong with it.
    pub fn of(source: Source) -> Outcome<Subject> {
        let Source { name, bytes } = source;
        // The marks of UTF-16, as which some editors save; no plan bytes begin so.
        if bytes.starts_with(b"\xFF\xFE") || bytes.starts_with(b"\xFE\xFF") {
            return Err(Trouble::Input(format!(
                "{name}: this is text in UTF-16; save it as UTF-8"
            )));
        }
        match is_text(&bytes) {
            true => Subject::of_text(name, Text::of(&bytes)),
            false => match Plan::read(&bytes) {
                Ok((plan, taken)) => Ok(Subject {
                    source: name,
                    plan,
                    names: Names::default(),
                    text: None,
                    rest: bytes.len().saturating_sub(taken),
                    found: None,
                }),
                Err(answer) => Err(Trouble::Faults(name, vec![of_bytes(answer)])),
            },
        }
    }

    fn of_text(source: String, text: Text) -> Outcome<Subject> {
        let found = faults::of(&text);
        if !found.is_empty() {
            return Err(Trouble::Faults(source, found));
        }
        let names = text.names();
        let mut plan = faults::record(&text);
        let mut note = None;
        if let Some(open) = text.open() {
            match plan.smallest_budget(open as u64) {
                Ok(budget) => {
                    note = words::smallest(&plan, &names, open);
                    if let Some(project) = plan.project.get_mut(open) {
                        project.budget = budget;
                    }
                }
                Err(answer) => {
                    let line = text.projects.get(open).map(|entry| entry.line);
                    let words = words::smallest(&plan, &names, open);
                    let words = words.unwrap_or_else(|| in_words(answer.number).to_string());
                    let about = match answer.number {
                        8 => About::Kind(usize::from(answer.place)),
                        _ => About::Plan,
                    };
                    let fault = Fault::refused(line, answer.number, about, words);
                    return Err(Trouble::Faults(source, vec![fault]));
                }
            }
        }
        // The library has the last word.
        match plan.check() {
            Ok(()) => Ok(Subject {
                source,
                plan,
                names,
                text: Some(text),
                rest: 0,
                found: note,
            }),
            Err(answer) => Err(Trouble::Faults(source, vec![of_bytes(answer)])),
        }
    }

    /// The file's name without its folders, for pictures and pages.
    pub fn title(&self) -> String {
        let name = Path::new(&self.source).file_name();
        name.map_or(self.source.clone(), |name| {
            name.to_string_lossy().into_owned()
        })
    }

    /// How many projects there are.
    pub fn projects(&self) -> usize {
        usize::from(self.plan.projects)
    }

    /// How many kinds there are.
    pub fn kinds(&self) -> usize {
        usize::from(self.plan.kinds)
    }

    /// The line of a kind.
    pub fn line_of_kind(&self, kind: usize) -> Option<usize> {
        let entry = self.text.as_ref().and_then(|text| text.kinds.get(kind));
        entry.map(|entry| entry.line)
    }

    /// The line of a project.
    pub fn line_of_project(&self, project: usize) -> Option<usize> {
        let entry = self
            .text
            .as_ref()
            .and_then(|text| text.projects.get(project));
        entry.map(|entry| entry.line)
    }

    /// Where something stands, as an error begins.
    pub fn at(&self, line: Option<usize>) -> String {
        let line = line.map_or(String::new(), |line| format!(":{line}"));
        format!("{}{line}", self.source)
    }

    /// Why the plan is not admitted, as a fault of its first kind with no k.
    pub fn not_admitted(&self, answer: Answer) -> Fault {
        let kind = usize::from(answer.place);
        let words = format!(
            "not admitted: {}",
            words::too_long(&self.plan, &self.names, answer)
        );
        let project = self
            .plan
            .kind
            .get(kind)
            .map_or(0, |kind| usize::from(kind.project));
        let mut fault = Fault::refused(
            self.line_of_kind(kind),
            answer.number,
            About::Kind(kind),
            words,
        );
        fault.advice = words::smallest(&self.plan, &self.names, project);
        fault
    }

    /// The plan's projects and kinds, field by field.
    pub fn json(&self) -> Json {
        let project = |place: usize| {
            let project = self.plan.project.get(place).copied().unwrap_or_default();
            Json::Object(vec![
                ("number", place.into()),
                ("name", self.names.of_project(place).into()),
                ("ceiling", project.ceiling.into()),
                ("budget", project.budget.into()),
            ])
        };
        let kind = |place: usize| {
            let kind = self.plan.kind.get(place).copied().unwrap_or_default();
            Json::Object(vec![
                ("number", place.into()),
                ("name", self.names.of_kind(place).into()),
                ("project", kind.project.into()),
                ("separation", kind.separation.into()),
                ("deadline", kind.deadline.into()),
                ("length", kind.length.into()),
            ])
        };
        Json::Object(vec![
            ("cards", self.plan.cards.into()),
            ("frame", self.plan.frame.into()),
            (
                "projects",
                Json::List((0..self.projects()).map(project).collect()),
            ),
            ("kinds", Json::List((0..self.kinds()).map(kind).collect())),
        ])
    }
}

/// A refusal of plan bytes.
pub fn of_bytes(answer: Answer) -> Fault {
    let place = usize::from(answer.place);
    let about = match answer.number {
        4 => About::Project(place),
        5 | 6 | 8 => About::Kind(place),
        _ => About::Plan,
    };
    let called = match about {
        About::Plan => String::new(),
        About::Project(place) => format!("project {place}: "),
        About::Kind(place) => format!("kind {place}: "),
    };
    Fault::refused(
        None,
        answer.number,
        about,
        format!("{called}{}", in_words(answer.number)),
    )
}

#[cfg(test)]
mod tests {
    use super::*;
    use crate::names::TAKEN;
    use crate::script;
    use generate::Generator;
    use second::bytes::pack;
    use second::plan::check;

    const PLAN: &str = "cards 2\nframe 4\nproject fold ceiling 1 budget 3 # one\nproject ceiling 2 budget 5\n\
        kind a project fold separation 8 deadline 8 length 6\nkind b project 1 separation 4 deadline 4 length 2\n";

    /// Beside the words that have a meaning.
    const WORDS: [&str; 15] = [
        "0",
        "1",
        "4",
        "8",
        "64",
        "4095",
        "99999999999999999999999",
        "-1",
        "?",
        "#",
        "\n",
        "fold",
        "a",
        "\u{feff}",
        "é\u{1}",
    ];

    fn subject(bytes: Vec<u8>) -> Outcome<Subject> {
        let name = "input".to_string();
        Subject::of(Source { name, bytes })
    }

    /// Whatever is given, there is a plan in order or a fault in words.
    fn answered(bytes: Vec<u8>) {
        match subject(bytes.clone()) {
            Ok(subject) => {
                assert_eq!(subject.plan.check(), Ok(()));
                // What a text says is what the second program finds in the bytes that it gives.
                let (answer, plan, _) = second::read(&subject.plan.bytes().unwrap());
                assert!(answer.is_good() && check(&plan).is_good());
            }
            Err(trouble) => {
                let lines = trouble.lines();
                assert!(!lines.is_empty());
                for line in lines {
                    assert!(
                        line.len() < 400 && !line.contains(char::is_control),
                        "{line:?}"
                    );
                }
            }
        }
        let name = "input".to_string();
        if let Err(trouble) = script::read(&Source { name, bytes }, &Names::default()) {
            assert!(!trouble.lines().is_empty());
        }
    }

    #[test]
    fn arbitrary_bytes_are_answered() {
        let mut generator = Generator::new(1);
        for _ in 0..3000 {
            let length = generator.below(200);
            let most = [256, 128, 32][generator.below(3) as usize];
            let bytes = (0..length).map(|_| generator.below(most) as u8);
            answered(bytes.collect());
        }
    }

    #[test]
    fn words_in_any_order_are_answered() {
        let mut generator = Generator::new(2);
        let words = [&TAKEN[..], &WORDS[..]].concat();
        for _ in 0..3000 {
            let mut text = String::new();
            for _ in 0..generator.below(120) {
                text += words[generator.below(words.len() as u64) as usize];
                text.push(if generator.one_in(5) { '\n' } else { ' ' });
            }
            answered(text.into_bytes());
        }
    }

    #[test]
    fn a_text_with_some_bytes_changed_is_answered() {
        let mut generator = Generator::new(3);
        for _ in 0..3000 {
            let mut bytes = PLAN.as_bytes().to_vec();
            for _ in 0..=generator.below(4) {
                let at = generator.below(bytes.len() as u64) as usize;
                match generator.below(4) {
                    0 => bytes[at] = generator.below(256) as u8,
                    1 => bytes[at] = b'0' + generator.below(10) as u8,
                    2 => drop(bytes.remove(at)),
                    _ => bytes.insert(at, b"0123456789 ?#\n"[generator.below(14) as usize]),
                }
            }
            answered(bytes);
        }
    }

    #[test]
    fn long_lines_many_lines_and_huge_numbers_are_answered() {
        for text in [
            "9".repeat(1 << 20),
            format!("cards {}", "9".repeat(1 << 20)),
            format!("project {} ceiling 1 budget 1", "x".repeat(1 << 20)),
            format!("kind {}", "project 0 ".repeat(1 << 16)),
            "kind project 0 separation 8 deadline 8 length 1\n".repeat(2000),
            "project ceiling 1 budget 1\n".repeat(2000),
            "cards 2\n".repeat(2000),
            "#".repeat(1 << 20),
            "\n".repeat(1 << 16),
        ] {
            answered(text.into_bytes());
        }
    }

    #[test]
    fn text_and_plan_bytes_are_told_apart() {
        let mut generator = Generator::new(4);
        for _ in 0..200 {
            let plan = generator.good_plan();
            let bytes = pack(&plan);
            assert!(!is_text(&bytes), "{bytes:02x?}");
            let (own, _) = Plan::read(&bytes).unwrap();
            let subject = Subject {
                source: String::new(),
                plan: own,
                names: Names::default(),
                text: None,
                rest: 0,
                found: None,
            };
            let mut text = format!("cards {}\nframe {}\n", own.cards, own.frame);
            let projects =
                (0..subject.projects()).filter_map(|place| crate::text::project_line(&own, place));
            let kinds =
                (0..subject.kinds()).filter_map(|place| crate::text::kind_line(&own, place));
            for line in projects.chain(kinds) {
                text += &format!("{line}\n");
            }
            assert!(is_text(text.as_bytes()));
            assert_eq!(
                super::Subject::of(Source {
                    name: String::new(),
                    bytes: text.into_bytes()
                })
                .unwrap()
                .plan,
                own
            );
        }
        for text in [
            "",
            "\n",
            "cards",
            "#",
            "frame 4\n",
            "project",
            "kind",
            "\u{feff}cards 2",
            "# \x01 one odd letter",
        ] {
            assert!(is_text(text.as_bytes()), "{text:?}");
        }
        for bytes in [&[0][..], &[0x22, 0x18], b"\x01\x02\x03", &[0xFF; 40]] {
            assert!(!is_text(bytes), "{bytes:02x?}");
        }
    }
}
