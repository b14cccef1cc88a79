//! What projects and kinds are called: by their names where the text has them, else by their numbers.

/// The names of a plan's projects and kinds.
#[derive(Clone, Debug, Default)]
pub struct Names {
    /// Of each project, where it has one.
    pub projects: Vec<Option<String>>,
    /// Of each kind, where it has one.
    pub kinds: Vec<Option<String>>,
}

/// Words that have a meaning of their own, and are no names.
pub(crate) const TAKEN: [&str; 11] = [
    "cards",
    "frame",
    "project",
    "kind",
    "ceiling",
    "budget",
    "separation",
    "deadline",
    "length",
    "release",
    "slice",
];

/// The most letters of a name.
const LONGEST: usize = 40;

/// Why a word is no name, if it is none.
pub fn not_a_name(word: &str) -> Option<&'static str> {
    let good = |byte: u8| byte.is_ascii_alphanumeric() || matches!(byte, b'-' | b'_' | b'.');
    if !word
        .bytes()
        .next()
        .is_some_and(|first| first.is_ascii_alphabetic())
    {
        return Some("a name begins with a letter");
    }
    if !word.bytes().all(good) {
        return Some("a name has letters, digits, `-`, `_` and `.`");
    }
    if word.len() > LONGEST {
        return Some("a name has at most 40 letters");
    }
    if TAKEN.contains(&word) {
        return Some("it has a meaning of its own");
    }
    None
}

impl Names {
    /// The name of a project, or nothing.
    pub fn of_project(&self, number: usize) -> Option<&str> {
        self.projects.get(number).and_then(Option::as_deref)
    }

    /// The name of a kind, or nothing.
    pub fn of_kind(&self, number: usize) -> Option<&str> {
        self.kinds.get(number).and_then(Option::as_deref)
    }

    /// A project as a sentence has it.
    pub fn project(&self, number: usize) -> String {
        told("project", number, self.of_project(number))
    }

    /// A kind as a sentence has it.
    pub fn kind(&self, number: usize) -> String {
        told("kind", number, self.of_kind(number))
    }

    /// A project as a table has it.
    pub fn short_project(&self, number: usize) -> String {
        self.of_project(number)
            .map_or(number.to_string(), str::to_string)
    }

    /// A kind as a table has it.
    pub fn short_kind(&self, number: usize) -> String {
        self.of_kind(number)
            .map_or(number.to_string(), str::to_string)
    }

    /// The number of the project that a word means: its name or its number.
    pub fn project_of(&self, word: &str) -> Option<u64> {
        found(&self.projects, word)
    }

    /// The number of the kind that a word means.
    pub fn kind_of(&self, word: &str) -> Option<u64> {
        found(&self.kinds, word)
    }
}

fn told(what: &str, number: usize, name: Option<&str>) -> String {
    match name {
        Some(name) => format!("{what} {number} ({name})"),
        None => format!("{what} {number}"),
    }
}

/// A number is taken as it is, whether there is such a place or not: the library says.
fn found(names: &[Option<String>], word: &str) -> Option<u64> {
    let named = names.iter().position(|name| name.as_deref() == Some(word));
    named.map(|number| number as u64).or_else(|| number(word))
}

/// A whole number; one that is too large for 64 bits counts as the largest of them.
pub fn number(word: &str) -> Option<u64> {
    if word.is_empty() || !word.bytes().all(|byte| byte.is_ascii_digit()) {
        return None;
    }
    Some(word.parse().unwrap_or(u64::MAX))
}

/// A word as an error shows it: not too long, and nothing that would disturb a terminal.
pub fn shown(word: &str) -> String {
    const MOST: usize = 40;
    let mut out = String::new();
    for letter in word.chars().take(MOST) {
        match letter.is_control() {
            true => out.extend(letter.escape_default()),
            false => out.push(letter),
        }
    }
    if word.chars().nth(MOST).is_some() {
        out.push_str("..");
    }
    out
}
