//! Pictures: the slot table, and the chart of a run.

use crate::colour::{letter, of_picture, small_letter};
use crate::gantt::{is_free, served};
use crate::record::Record;
use crate::slots::owner;
use crate::subject::Subject;
use std::fmt::Write;

/// A cell's width, a lane's height, the room for labels and the head above lanes.
const CELL: u64 = 16;
const LANE: u64 = 20;
const LABEL: u64 = 130;
const HEAD: u64 = 22;

/// Text that may stand in a picture or a page.
pub fn escaped(text: &str) -> String {
    let mut out = String::new();
    for letter in text.chars() {
        match letter {
            '<' => out.push_str("&lt;"),
            '>' => out.push_str("&gt;"),
            '&' => out.push_str("&amp;"),
            '"' => out.push_str("&quot;"),
            control if control.is_control() => out.push(' '),
            other => out.push(other),
        }
    }
    out
}

/// A picture of this size around what is drawn.
fn picture(width: u64, height: u64, title: &str, drawn: &str) -> String {
    format!(
        "<svg xmlns=\"http://www.w3.org/2000/svg\" width=\"{width}\" height=\"{height}\" \
         viewBox=\"0 0 {width} {height}\" font-family=\"sans-serif\" font-size=\"11\">\n\
         <title>{}</title>\n<rect width=\"{width}\" height=\"{height}\" fill=\"#ffffff\"/>\n{drawn}</svg>\n",
        escaped(title)
    )
}

fn text(out: &mut String, x: u64, y: u64, words: &str, how: &str) {
    let _ = writeln!(
        out,
        "<text x=\"{x}\" y=\"{y}\"{how}>{}</text>",
        escaped(words)
    );
}

/// A cell, with what it says when it is pointed at.
fn cell(out: &mut String, x: u64, y: u64, fill: &str, sign: &str, says: &str) {
    let (width, height, middle) = (CELL - 1, LANE - 2, x + CELL / 2);
    let _ = write!(
        out,
        "<g><title>{}</title><rect x=\"{x}\" y=\"{y}\" width=\"{width}\" height=\"{height}\" fill=\"{fill}\"/>",
        escaped(says)
    );
    if !sign.is_empty() {
        let y = y + LANE - 7;
        let _ = write!(
            out,
            "<text x=\"{middle}\" y=\"{y}\" text-anchor=\"middle\">{}</text>",
            escaped(sign)
        );
    }
    out.push_str("</g>\n");
}

/// The numbers of slices above cells.
fn head(out: &mut String, y: u64, first: u64, slices: u64) {
    text(out, 4, y + HEAD - 7, "slice", " fill=\"#666666\"");
    for slice in first..first + slices {
        if slice % 4 == 0 || slices <= 16 {
            let x = LABEL + (slice - first) * CELL + CELL / 2;
            text(
                out,
                x,
                y + HEAD - 7,
                &slice.to_string(),
                " fill=\"#666666\" text-anchor=\"middle\"",
            );
        }
    }
}

/// The slot table.
pub fn slot_table(subject: &Subject, slots: &[u8]) -> String {
    let frame = usize::from(subject.plan.frame.max(1));
    let mut out = String::new();
    head(&mut out, 0, 0, frame as u64);
    let mut y = HEAD;
    for (card, cells) in slots.chunks(frame).enumerate() {
        text(&mut out, 4, y + LANE - 7, &format!("card {card}"), "");
        for (slice, slot) in cells.iter().enumerate() {
            let x = LABEL + slice as u64 * CELL;
            let at = format!("card {card}, slice {slice}");
            match owner(*slot) {
                None => cell(&mut out, x, y, "#f4f4f4", "", &format!("{at}: free")),
                Some(project) => {
                    let says = format!("{at}: {}", subject.names.project(project));
                    cell(
                        &mut out,
                        x,
                        y,
                        of_picture(project),
                        &letter(project).to_string(),
                        &says,
                    );
                }
            }
        }
        y += LANE;
    }
    y += LANE / 2;
    let mut widest = frame as u64 * CELL;
    for place in 0..subject.projects() {
        let project = subject.plan.project.get(place).copied().unwrap_or_default();
        let called = subject.names.project(place);
        let words = format!(
            "{called}: ceiling {}, budget {}",
            project.ceiling, project.budget
        );
        cell(
            &mut out,
            LABEL,
            y,
            of_picture(place),
            &letter(place).to_string(),
            &called,
        );
        text(&mut out, LABEL + CELL + 6, y + LANE - 7, &words, "");
        widest = widest.max(CELL + 12 + 7 * words.chars().count() as u64);
        y += LANE;
    }
    let title = format!("Slot table of {}", subject.title());
    picture(LABEL + widest + 8, y + 6, &title, &out)
}

/// The chart of a run, in bands of so many slices.
pub fn chart(subject: &Subject, record: &Record, slots: &[u8], band: u64) -> String {
    let band = band.clamp(1, record.slices.max(1));
    let cards = u64::from(record.plan.cards);
    let lanes = cards + record.kinds.len() as u64;
    let height = HEAD + lanes * LANE + 14;
    let mut out = String::new();
    let mut first = 0;
    let mut y = 0;
    while first < record.slices {
        let slices = band.min(record.slices - first);
        head(&mut out, y, first, slices);
        for card in 0..usize::from(record.plan.cards) {
            row(
                &mut out,
                subject,
                record,
                slots,
                card,
                y + HEAD + card as u64 * LANE,
                first..first + slices,
            );
        }
        for kind in 0..record.kinds.len() {
            let y = y + HEAD + (cards + kind as u64) * LANE;
            units(&mut out, subject, record, kind, y, first..first + slices);
        }
        first += slices;
        y += height;
    }
    let title = format!("Run of {}: {} slices", subject.title(), record.slices);
    picture(LABEL + band * CELL + 8, y.max(HEAD), &title, &out)
}

type Slices = std::ops::Range<u64>;

/// A card's lane.
fn row(
    out: &mut String,
    subject: &Subject,
    record: &Record,
    slots: &[u8],
    card: usize,
    y: u64,
    slices: Slices,
) {
    text(out, 4, y + LANE - 7, &format!("card {card}"), "");
    for slice in slices.clone() {
        let x = LABEL + (slice - slices.start) * CELL;
        let at = format!("card {card}, slice {slice}");
        match served(record, card, slice) {
            Some(kind) => {
                let says = format!("{at}: {}", subject.names.kind(kind));
                cell(
                    out,
                    x,
                    y,
                    of_picture(record.project_of(kind)),
                    &small_letter(kind).to_string(),
                    &says,
                );
            }
            None if is_free(record, slots, card, slice) => {
                cell(out, x, y, "#f4f4f4", "", &format!("{at}: free"))
            }
            None => cell(out, x, y, "#dddddd", "", &format!("{at}: idle")),
        }
    }
}

/// A kind's lane: each unit from its release to its deadline.
fn units(
    out: &mut String,
    subject: &Subject,
    record: &Record,
    kind: usize,
    y: u64,
    slices: Slices,
) {
    let name = subject
        .names
        .of_kind(kind)
        .map_or(format!("kind {kind}"), str::to_string);
    let name: String = name.chars().take(16).collect();
    text(
        out,
        4,
        y + LANE - 7,
        &format!("{} {name}", small_letter(kind)),
        "",
    );
    let x = |slice: u64| LABEL + (slice.clamp(slices.start, slices.end) - slices.start) * CELL;
    for unit in record.units().into_iter().filter(|unit| unit.kind == kind) {
        if unit.due <= slices.start || unit.at >= slices.end {
            continue;
        }
        let (from, to) = (x(unit.at), x(unit.due));
        let says = format!(
            "{}: released before slice {}, {} long, due before slice {}",
            subject.names.kind(kind),
            unit.at,
            unit.length,
            unit.due
        );
        let middle = y + LANE / 2 - 2;
        let _ = write!(
            out,
            "<g><title>{}</title><rect x=\"{from}\" y=\"{middle}\" width=\"{}\" height=\"3\" fill=\"#999999\"/>",
            escaped(&says),
            to - from
        );
        for slice in unit.at.max(slices.start)..unit.due.min(slices.end) {
            if record.serves(slice, kind) {
                let (x, y, width, height) = (x(slice), y + 3, CELL - 1, LANE - 8);
                let fill = of_picture(record.project_of(kind));
                let _ = write!(out, "<rect x=\"{x}\" y=\"{y}\" width=\"{width}\" height=\"{height}\" fill=\"{fill}\"/>");
            }
        }
        if slices.contains(&unit.at) {
            let bottom = y + LANE - 2;
            let _ = write!(
                out,
                "<path d=\"M{from} {y} l5 6 l-5 6 z\" fill=\"#1b7837\"/>"
            );
            let _ = write!(
                out,
                "<path d=\"M{from} {y} V{bottom}\" stroke=\"#1b7837\"/>"
            );
        }
        if unit.due > slices.start && unit.due <= slices.end {
            let bottom = y + LANE - 2;
            let _ = write!(
                out,
                "<path d=\"M{to} {y} V{bottom}\" stroke=\"#b2182b\" stroke-width=\"2\"/>"
            );
        }
        out.push_str("</g>\n");
    }
}

/// Where the cells of a chart begin, and how wide each is: a page moves its mark by these.
pub const COLUMNS: (u64, u64) = (LABEL, CELL);
