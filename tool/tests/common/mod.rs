//! What the tests of the program share: running it, a folder for its files, and JSON read back.

#![allow(dead_code)]

use std::collections::BTreeMap;
use std::io::Write;
use std::path::PathBuf;
use std::process::{Command, Stdio};

/// Plan A with names.
pub const PLAN_A: &str = "\
cards 2
frame 4
project folding ceiling 1 budget 3
project docking ceiling 2 budget 5
kind fold project folding separation 8 deadline 8 length 6
kind dock project docking separation 4 deadline 4 length 2
kind long project docking separation 8 deadline 8 length 2
";

/// The commands of document 01's example.
pub const EXAMPLE: &str =
    "release fold 6\nrelease dock 2\nrelease long 2\nslice 4\nrelease dock 2\nrelease long 1\n";

/// What a run of the program came to.
#[derive(Debug)]
pub struct Ran {
    pub status: Option<i32>,
    pub output: Vec<u8>,
    pub said: String,
}

impl Ran {
    pub fn text(&self) -> &str {
        std::str::from_utf8(&self.output).unwrap()
    }

    pub fn json(&self) -> Value {
        Value::read(self.text())
    }
}

/// The program.
pub fn program() -> Command {
    let mut command = Command::new(env!("CARGO_BIN_EXE_parchbeetle"));
    command.env_remove("NO_COLOR");
    command
}

/// Runs it with these arguments and this input.
pub fn parchbeetle(arguments: &[&str], input: &[u8]) -> Ran {
    ran(program().args(arguments), input)
}

/// Runs a command with this input.
pub fn ran(command: &mut Command, input: &[u8]) -> Ran {
    let mut child = command
        .stdin(Stdio::piped())
        .stdout(Stdio::piped())
        .stderr(Stdio::piped())
        .spawn()
        .unwrap();
    // It may end before it reads.
    let _ = child.stdin.take().unwrap().write_all(input);
    let ran = child.wait_with_output().unwrap();
    Ran {
        status: ran.status.code(),
        output: ran.stdout,
        said: String::from_utf8(ran.stderr).unwrap(),
    }
}

/// A folder of one test, gone when the test is over.
pub struct Folder(PathBuf);

impl Folder {
    pub fn new(name: &str) -> Folder {
        let folder =
            std::env::temp_dir().join(format!("parchbeetle-{}-{name}", std::process::id()));
        std::fs::create_dir_all(&folder).unwrap();
        Folder(folder)
    }

    /// The path of a file in it.
    pub fn path(&self, name: &str) -> String {
        self.0.join(name).to_str().unwrap().to_string()
    }

    /// A file in it.
    pub fn file(&self, name: &str, bytes: impl AsRef<[u8]>) -> String {
        let path = self.path(name);
        std::fs::write(&path, bytes).unwrap();
        path
    }

    pub fn read(&self, name: &str) -> String {
        std::fs::read_to_string(self.0.join(name)).unwrap()
    }

    pub fn folder(&self) -> &PathBuf {
        &self.0
    }
}

impl Drop for Folder {
    fn drop(&mut self) {
        let _ = std::fs::remove_dir_all(&self.0);
    }
}

/// JSON, read back; the whole text has to be one value.
#[derive(Clone, Debug, PartialEq)]
pub enum Value {
    Null,
    Truth(bool),
    Number(i64),
    Text(String),
    List(Vec<Value>),
    Object(BTreeMap<String, Value>),
}

impl Value {
    pub fn read(text: &str) -> Value {
        let mut rest: &str = text;
        let value = Value::take(&mut rest);
        assert_eq!(rest.trim(), "");
        value
    }

    fn take(rest: &mut &str) -> Value {
        *rest = rest.trim_start();
        let first = rest.chars().next().expect("a value");
        match first {
            '{' => Value::Object(
                Value::between(rest, '}', |rest| {
                    let Value::Text(name) = Value::take(rest) else {
                        panic!("a name")
                    };
                    *rest = rest.trim_start().strip_prefix(':').expect("a colon");
                    (name, Value::take(rest))
                })
                .into_iter()
                .collect(),
            ),
            '[' => Value::List(Value::between(rest, ']', Value::take)),
            '"' => {
                let mut text = String::new();
                let mut letters = rest[1..].char_indices();
                loop {
                    match letters.next().expect("the end of a text") {
                        (at, '"') => {
                            *rest = &rest[at + 2..];
                            return Value::Text(text);
                        }
                        (_, '\\') => match letters.next().unwrap().1 {
                            'n' => text.push('\n'),
                            'r' => text.push('\r'),
                            't' => text.push('\t'),
                            'u' => {
                                let digits: String =
                                    (0..4).map(|_| letters.next().unwrap().1).collect();
                                text.push(
                                    char::from_u32(u32::from_str_radix(&digits, 16).unwrap())
                                        .unwrap(),
                                );
                            }
                            other => text.push(other),
                        },
                        (_, other) => {
                            assert!(other >= ' ', "a control character stands bare");
                            text.push(other);
                        }
                    }
                }
            }
            _ => {
                let end = rest
                    .find(|letter: char| !letter.is_ascii_alphanumeric() && letter != '-')
                    .unwrap_or(rest.len());
                let (word, behind) = rest.split_at(end);
                *rest = behind;
                match word {
                    "null" => Value::Null,
                    "true" => Value::Truth(true),
                    "false" => Value::Truth(false),
                    number => Value::Number(number.parse().unwrap()),
                }
            }
        }
    }

    fn between<T>(rest: &mut &str, close: char, take: impl Fn(&mut &str) -> T) -> Vec<T> {
        let mut found = Vec::new();
        *rest = rest[1..].trim_start();
        if let Some(behind) = rest.strip_prefix(close) {
            *rest = behind;
            return found;
        }
        loop {
            found.push(take(rest));
            *rest = rest.trim_start();
            match rest.strip_prefix(close) {
                Some(behind) => {
                    *rest = behind;
                    return found;
                }
                None => *rest = rest.strip_prefix(',').expect("a comma"),
            }
        }
    }

    /// A field of an object.
    pub fn at(&self, name: &str) -> &Value {
        match self {
            Value::Object(fields) => fields
                .get(name)
                .unwrap_or_else(|| panic!("no field {name}")),
            other => panic!("no object: {other:?}"),
        }
    }

    /// A place of a list.
    pub fn nth(&self, place: usize) -> &Value {
        match self {
            Value::List(values) => &values[place],
            other => panic!("no list: {other:?}"),
        }
    }

    pub fn list(&self) -> &[Value] {
        match self {
            Value::List(values) => values,
            other => panic!("no list: {other:?}"),
        }
    }

    pub fn number(&self) -> i64 {
        match self {
            Value::Number(number) => *number,
            other => panic!("no number: {other:?}"),
        }
    }

    pub fn text(&self) -> &str {
        match self {
            Value::Text(text) => text,
            other => panic!("no text: {other:?}"),
        }
    }

    /// Every field of every object in it, as a path.
    pub fn fields(&self) -> Vec<String> {
        let mut found = Vec::new();
        match self {
            Value::Object(fields) => {
                for (name, value) in fields {
                    found.push(name.clone());
                    found.extend(value.fields().iter().map(|inner| format!("{name}.{inner}")));
                }
            }
            Value::List(values) => found.extend(values.iter().flat_map(Value::fields)),
            _ => {}
        }
        found.sort();
        found.dedup();
        found
    }
}
