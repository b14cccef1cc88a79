//! Colours of the terminal and of pictures, by project, and the letters of projects and kinds.

use std::io::{self, IsTerminal};

/// Whether what is printed may have colours.
#[derive(Clone, Copy, Debug, PartialEq, Eq)]
pub struct Colours(pub bool);

impl Colours {
    /// By the word that was given: on a terminal, unless NO_COLOR is set; always; never.
    pub fn of(word: Option<&str>) -> Option<Colours> {
        let unwanted = std::env::var_os("NO_COLOR").is_some_and(|value| !value.is_empty());
        match word.unwrap_or("auto") {
            "auto" => Some(Colours(!unwanted && io::stdout().is_terminal())),
            "always" => Some(Colours(true)),
            "never" => Some(Colours(false)),
            _ => None,
        }
    }

    /// A text on the background of a project.
    pub fn on(self, project: usize, text: &str) -> String {
        const BACKGROUNDS: [u8; 8] = [44, 42, 43, 45, 46, 41, 104, 102];
        match (self.0, BACKGROUNDS.get(project % BACKGROUNDS.len())) {
            (true, Some(background)) => format!("\x1b[30;{background}m{text}\x1b[0m"),
            _ => text.to_string(),
        }
    }

    /// A heading.
    pub fn strong(self, text: &str) -> String {
        match self.0 {
            true => format!("\x1b[1m{text}\x1b[0m"),
            false => text.to_string(),
        }
    }
}

/// The colours of a picture: light enough that black letters stand on them.
const PICTURE: [&str; 8] = [
    "#8dd3c7", "#fdb462", "#bebada", "#fb8072", "#80b1d3", "#b3de69", "#fccde5", "#ffed6f",
];

/// The colour of a project in a picture.
pub fn of_picture(project: usize) -> &'static str {
    PICTURE
        .get(project % PICTURE.len())
        .copied()
        .unwrap_or("#d9d9d9")
}

/// The letter of a project: A, B, ..
pub fn letter(project: usize) -> char {
    from(b'A', project)
}

/// The letter of a kind: a, b, ..
pub fn small_letter(kind: usize) -> char {
    from(b'a', kind)
}

fn from(first: u8, number: usize) -> char {
    let number = u8::try_from(number).ok().filter(|number| *number < 26);
    number.map_or('?', |number| char::from(first + number))
}
