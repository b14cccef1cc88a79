//! The slot table as a picture of letters, coloured on a terminal.

use crate::colour::{letter, Colours};
use crate::subject::Subject;
use crate::words::count;

/// The number of a slot's project, or none for a free cell.
pub fn owner(slot: u8) -> Option<usize> {
    usize::from(slot).checked_sub(1)
}

/// The cells that nobody has.
pub fn free(slots: &[u8]) -> usize {
    slots.iter().filter(|slot| **slot == 0).count()
}

/// The numbers of slices above columns, in two lines where there are more than ten.
pub fn ruler(label: &str, width: usize, first: u64, slices: u64) -> String {
    let mut lines = Vec::new();
    let last = first + slices;
    let mut power = 1;
    while power == 1 || power < last {
        let digit = |slice: u64| match power {
            1 => char::from_digit((slice % 10) as u32, 10),
            _ if (!slice.is_multiple_of(10) && slice != first) || slice < power => Some(' '),
            _ => char::from_digit((slice / power % 10) as u32, 10),
        };
        let digits: String = (first..last).filter_map(digit).collect();
        lines.push(digits);
        power *= 10;
    }
    lines.reverse();
    let mut out = String::new();
    for (at, digits) in lines.iter().enumerate() {
        let label = if at + 1 == lines.len() { label } else { "" };
        out += format!("{label:<width$}{digits}").trim_end();
        out.push('\n');
    }
    out
}

/// The picture.
pub fn picture(subject: &Subject, slots: &[u8], colours: Colours) -> String {
    let frame = usize::from(subject.plan.frame.max(1));
    let mut out = format!(
        "{}, a frame of {}\n\n",
        count(usize::from(subject.plan.cards), "card", "cards"),
        count(frame, "slice", "slices")
    );
    out += &ruler("slice", 8, 0, frame as u64);
    for (card, cells) in slots.chunks(frame).enumerate() {
        out += &format!("{:<8}", format!("card {card}"));
        for slot in cells {
            out += &match owner(*slot) {
                None => ".".to_string(),
                Some(project) => colours.on(project, &letter(project).to_string()),
            };
        }
        out.push('\n');
    }
    out.push('\n');
    for place in 0..subject.projects() {
        let project = subject.plan.project.get(place).copied().unwrap_or_default();
        let sign = colours.on(place, &letter(place).to_string());
        out += &format!(
            "{sign}  {}: ceiling {}, budget {}\n",
            subject.names.project(place),
            project.ceiling,
            project.budget
        );
    }
    out + &format!(".  {} free\n", count(free(slots), "cell", "cells"))
}
