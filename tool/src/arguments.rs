//! What can be asked for: the commands with their arguments and options, and the words of `--help`.

use crate::commands;
use crate::ending::{Ending, Outcome, Trouble};
use std::ffi::{OsStr, OsString};
use std::fmt::Write;

/// An option.
pub struct Choice {
    /// As it is written, with its dashes.
    pub name: &'static str,
    /// What stands behind it, if something does.
    pub value: Option<&'static str>,
    /// What it is for.
    pub about: &'static str,
}

/// A command.
pub struct Command {
    /// As it is written.
    pub name: &'static str,
    /// Its arguments, as `--help` has them.
    pub arguments: &'static str,
    /// What it does, in one line.
    pub about: &'static str,
    /// The rest of `--help`.
    pub more: &'static str,
    /// How many arguments it takes: from, to.
    takes: (usize, usize),
    /// Its own options.
    pub choices: &'static [Choice],
    /// What answers it.
    pub answer: fn(&Given) -> Outcome<Ending>,
}

const JSON: Choice = Choice {
    name: "--json",
    value: None,
    about: "print one JSON object",
};
const COLOUR: Choice = Choice {
    name: "--color",
    value: Some("WHEN"),
    about: "auto, always or never; auto is on a terminal unless NO_COLOR is set",
};
const HELP: Choice = Choice {
    name: "--help",
    value: None,
    about: "print this",
};
const VERSION: Choice = Choice {
    name: "--version",
    value: None,
    about: "print the version",
};

/// All commands.
pub const COMMANDS: [Command; COUNT] = [
    Command {
        name: "check",
        arguments: "[PLAN]",
        about: "judge a plan: the verdict in words and as a table",
        more: "For each kind: W (what the other kinds of its project add), k, what it asks (kC + W), what it gets\n\
               (S(k,D)), the room between, the greatest length that would fit, and the bad slice of the frame to\n\
               arrive in. All faults of a text plan are told at once, and every kind that does not fit.\n",
        takes: (0, 1),
        choices: &[
            Choice {
                name: "--all-k",
                value: None,
                about: "a row for each k that is tried, not the least that fits alone",
            },
            JSON,
            COLOUR,
        ],
        answer: commands::check,
    },
    Command {
        name: "budget",
        arguments: "PLAN PROJECT",
        about: "the smallest budget that serves a project (a name or a number)",
        more: "The project's own budget is not looked at, and no other project's kinds are judged.\n",
        takes: (2, 2),
        choices: &[
            Choice {
                name: "--write",
                value: Some("FILE"),
                about: "write the plan with that budget, as text or bytes as it was given",
            },
            JSON,
        ],
        answer: commands::budget,
    },
    Command {
        name: "table",
        arguments: "[PLAN]",
        about: "the slot table: which project holds which card in which slice of the frame",
        more: "",
        takes: (0, 1),
        choices: &[
            Choice {
                name: "--svg",
                value: Some("FILE"),
                about: "write it as a picture too",
            },
            JSON,
            COLOUR,
        ],
        answer: commands::table,
    },
    Command {
        name: "run",
        arguments: "PLAN [SCRIPT]",
        about: "run a plan by a script, or by a random one",
        more: "The script has one thing a line: `release KIND LENGTH` (a name or a number), `slice`, `slice 10`;\n\
               `#` starts a comment. It prints what `play` prints, and then for each kind its units, the slices\n\
               served and the least room before a deadline, and for each project what it was served in a frame\n\
               against its budget. The status is 1 if the plan, a release or a slice is refused.\n",
        takes: (1, 2),
        choices: &[
            Choice {
                name: "--random",
                value: Some("SEED"),
                about: "instead of a script: releases at random, the same for the same seed",
            },
            Choice {
                name: "--slices",
                value: Some("N"),
                about: "how many slices a random run has (64)",
            },
            Choice {
                name: "--gantt",
                value: None,
                about: "a chart card by card instead of the lines of `play`",
            },
            Choice {
                name: "--svg",
                value: Some("FILE"),
                about: "write the chart as a picture",
            },
            Choice {
                name: "--html",
                value: Some("FILE"),
                about: "write one page with verdict, slot table and chart",
            },
            JSON,
            COLOUR,
        ],
        answer: commands::run,
    },
    Command {
        name: "build",
        arguments: "CARDS T:C ..",
        about: "a finished plan: each kind a project of its own, due within its T",
        more: "Every plan that is built is admitted. It is printed as text.\n",
        takes: (1, usize::MAX),
        choices: &[
            Choice {
                name: "--write",
                value: Some("FILE"),
                about: "write its plan bytes",
            },
            JSON,
        ],
        answer: commands::build,
    },
    Command {
        name: "rescue",
        arguments: "[FILE]",
        about: "a plan out of damaged plan bytes, with each change in words",
        more: "Spare bits are cleared, ceilings, budgets and deadlines brought into range, and kinds that cannot be\n\
               saved dropped. The plan is printed as text. The status is 1 if no kind remains, or if the budgets\n\
               still sum too high.\n",
        takes: (0, 1),
        choices: &[
            Choice {
                name: "--write",
                value: Some("FILE"),
                about: "write the rescued plan's bytes",
            },
            JSON,
        ],
        answer: commands::rescue,
    },
    Command {
        name: "encode",
        arguments: "[PLAN]",
        about: "a plan as plan bytes",
        more: "A plan that is not admitted has bytes too; a note says that it is not. Names and comments are not in\n\
               the bytes: `decode --names` takes them from the text again.\n",
        takes: (0, 1),
        choices: &[
            Choice {
                name: "--write",
                value: Some("FILE"),
                about: "write the bytes there and not to the standard output",
            },
            JSON,
        ],
        answer: commands::encode,
    },
    Command {
        name: "decode",
        arguments: "[PLAN]",
        about: "a plan as text",
        more: "",
        takes: (0, 1),
        choices: &[
            Choice {
                name: "--names",
                value: Some("FILE"),
                about: "a text plan whose names, comments and layout are kept, with the numbers of PLAN",
            },
            JSON,
        ],
        answer: commands::decode,
    },
];

/// How many there are.
const COUNT: usize = 8;

/// What every command has.
const ALWAYS: [Choice; 2] = [HELP, VERSION];

const PLANS: &str = "\
PLAN is a file with a plan as text or as plan bytes, told apart by content; - or nothing is the standard
input. The text has one thing a line; `#` starts a comment, and names may be left out:

    cards 2
    frame 4
    project folding ceiling 1 budget 3
    kind fold-a project folding separation 8 deadline 8 length 6

`budget ?` of one project stands for the smallest budget that serves it.
";

const STATUS: &str =
    "exit status: 0 good, 1 refused by the rules, 2 wrong use or unreadable input\n";

/// What was given.
pub struct Given {
    /// The arguments that are no options.
    pub arguments: Vec<OsString>,
    choices: Vec<(&'static str, Option<OsString>)>,
}

impl Given {
    /// Whether an option was given.
    pub fn has(&self, name: &str) -> bool {
        self.choices.iter().any(|(given, _)| *given == name)
    }

    /// The value of an option.
    pub fn value(&self, name: &str) -> Option<&OsStr> {
        let found = self.choices.iter().find(|(given, _)| *given == name);
        found.and_then(|(_, value)| value.as_deref())
    }

    /// The value of an option, as text.
    pub fn word(&self, name: &str) -> Option<String> {
        self.value(name)
            .map(|value| value.to_string_lossy().into_owned())
    }

    /// An argument, or `-`.
    pub fn argument(&self, place: usize) -> &OsStr {
        self.arguments
            .get(place)
            .map_or(OsStr::new("-"), OsString::as_os_str)
    }
}

/// What to do.
pub enum Asked {
    /// Print this.
    Told(String),
    /// Answer a command.
    Do(&'static Command, Given),
}

/// Reads the command line.
pub fn asked(words: impl Iterator<Item = OsString>) -> Outcome<Asked> {
    let mut words = words;
    let Some(first) = words.next() else {
        return Err(Trouble::Use(format!(
            "a command is missing\n\n{}",
            usage().trim_end()
        )));
    };
    let first = first.to_string_lossy().into_owned();
    match first.as_str() {
        "--help" | "-h" | "help" => return Ok(Asked::Told(usage())),
        "--version" | "-V" => return Ok(Asked::Told(version())),
        _ => {}
    }
    let Some(command) = COMMANDS.iter().find(|command| command.name == first) else {
        let what = if first.starts_with('-') {
            "option"
        } else {
            "command"
        };
        let known = COMMANDS.map(|command| command.name).join(", ");
        let why = format!(
            "there is no {what} `{}`; the commands are {known}",
            crate::names::shown(&first)
        );
        return Err(Trouble::Use(why));
    };
    given(command, words)
        .map_err(|why| Trouble::Use(format!("{why}\ntry `parchbeetle {} --help`", command.name)))
}

fn given(
    command: &'static Command,
    mut words: impl Iterator<Item = OsString>,
) -> Result<Asked, String> {
    let mut given = Given {
        arguments: Vec::new(),
        choices: Vec::new(),
    };
    let mut only_arguments = false;
    while let Some(word) = words.next() {
        let text = word.to_string_lossy().into_owned();
        if only_arguments || text == "-" || !text.starts_with('-') {
            given.arguments.push(word);
            continue;
        }
        let (name, value) = match text.split_once('=') {
            Some((name, value)) => (name, Some(OsString::from(value))),
            None => (text.as_str(), None),
        };
        match name {
            "--" => {
                only_arguments = true;
                continue;
            }
            "--help" | "-h" => return Ok(Asked::Told(help(command))),
            "--version" | "-V" => return Ok(Asked::Told(version())),
            _ => {}
        }
        let name = crate::names::shown(name);
        let Some(choice) = command.choices.iter().find(|choice| choice.name == name) else {
            return Err(format!("`{}` has no option `{name}`", command.name));
        };
        if given.has(choice.name) {
            return Err(format!("`{name}` is given twice"));
        }
        let value = match (choice.value, value) {
            (None, None) => None,
            (None, Some(_)) => return Err(format!("`{name}` takes no value")),
            (Some(_), Some(value)) => Some(value),
            (Some(what), None) => Some(words.next().ok_or(format!("`{name}` wants {what}"))?),
        };
        given.choices.push((choice.name, value));
    }
    let (least, most) = command.takes;
    let count = given.arguments.len();
    if count < least || count > most {
        let what = if count < least { "too few" } else { "too many" };
        let wants = format!("`parchbeetle {} {}`", command.name, command.arguments);
        return Err(format!("{what} arguments: it is {wants}"));
    }
    Ok(Asked::Do(command, given))
}

fn version() -> String {
    format!("parchbeetle {}\n", env!("CARGO_PKG_VERSION"))
}

fn usage() -> String {
    let mut out = String::from("usage: parchbeetle COMMAND ..\n\nPlans for a rack of lent cards, judged, drawn and run by a proved library.\n\n");
    for command in &COMMANDS {
        let call = format!("{} {}", command.name, command.arguments);
        let _ = writeln!(out, "  {call:<22} {}", command.about);
    }
    let _ = write!(
        out,
        "\n`parchbeetle COMMAND --help` has the options of each; --json, --help and --version are everywhere.\n\n{PLANS}\n{STATUS}"
    );
    out
}

fn help(command: &Command) -> String {
    let mut out = format!(
        "usage: parchbeetle {} {}\n\n{}\n",
        command.name, command.arguments, command.about
    );
    if !command.more.is_empty() {
        let _ = write!(out, "\n{}", command.more);
    }
    out.push('\n');
    for choice in command.choices.iter().chain(&ALWAYS) {
        let call = choice.value.map_or(choice.name.to_string(), |value| {
            format!("{} {value}", choice.name)
        });
        let _ = writeln!(out, "  {call:<16} {}", choice.about);
    }
    if command.arguments.contains("PLAN") {
        let _ = write!(out, "\n{PLANS}");
    }
    let _ = write!(out, "\n{STATUS}");
    out
}
