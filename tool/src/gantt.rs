//! The chart of a run in letters: each card's row, and for each kind its units from release to deadline.

use crate::colour::{small_letter, Colours};
use crate::names::Names;
use crate::record::Record;
use crate::slots::ruler;
use bindings::in_words;

/// The most rows that the labels leave to names.
const NAME: usize = 14;

const LEGEND: &str = "\
cards: the letter of the kind that is served; . idle (the project that holds the card has no work); - free
kinds: r released before this slice, = served, - waits, . done, d last slice before the deadline;
       R and D: the same, and served in it
";

/// The chart.
pub fn chart(record: &Record, names: &Names, slots: &[u8], colours: Colours) -> String {
    let marks: Vec<Vec<char>> = (0..record.kinds.len())
        .map(|kind| marks(record, kind))
        .collect();
    let labels: Vec<String> = (0..record.kinds.len())
        .map(|kind| {
            let name: String = names
                .of_kind(kind)
                .unwrap_or("")
                .chars()
                .take(NAME)
                .collect();
            format!(
                "{} {}",
                small_letter(kind),
                if name.is_empty() {
                    format!("kind {kind}")
                } else {
                    name
                }
            )
        })
        .collect();
    let width = labels
        .iter()
        .map(|label| label.chars().count())
        .max()
        .unwrap_or(0)
        .max(6)
        + 2;
    let mut out = String::new();
    let mut first = 0;
    while first < record.slices {
        let slices = record.band().min(record.slices - first);
        out += &ruler("slice", width, first, slices);
        for card in 0..usize::from(record.plan.cards) {
            out += &format!("{:<width$}", format!("card {card}"));
            for slice in first..first + slices {
                out += &cell(record, slots, card, slice, colours);
            }
            out.push('\n');
        }
        for (kind, (label, marks)) in labels.iter().zip(&marks).enumerate() {
            let own =
                (first..first + slices).filter_map(|slice| marks.get(usize::try_from(slice).ok()?));
            let own: String = own.collect();
            let label = label.replacen(
                small_letter(kind),
                &colours.on(record.project_of(kind), &small_letter(kind).to_string()),
                1,
            );
            // The escapes of a colour take no column.
            let pad =
                width.saturating_sub(labels.get(kind).map_or(0, |label| label.chars().count()));
            out += format!("{label}{}{own}", " ".repeat(pad)).trim_end();
            out.push('\n');
        }
        out.push('\n');
        first += slices;
    }
    for release in record
        .releases
        .iter()
        .filter(|release| release.refused != 0)
    {
        out += &format!(
            "refused before slice {}: kind {}, length {}: {} ({})\n",
            release.at,
            release.kind,
            release.length,
            in_words(release.refused),
            release.refused
        );
    }
    out + LEGEND
}

/// One card in one slice.
fn cell(record: &Record, slots: &[u8], card: usize, slice: u64, colours: Colours) -> String {
    match served(record, card, slice) {
        Some(kind) => colours.on(record.project_of(kind), &small_letter(kind).to_string()),
        None if is_free(record, slots, card, slice) => "-".to_string(),
        None => ".".to_string(),
    }
}

/// The kind that a card serves.
pub fn served(record: &Record, card: usize, slice: u64) -> Option<usize> {
    let row = record.rows.get(usize::try_from(slice).ok()?)?;
    usize::from(*row.get(card)?).checked_sub(1)
}

/// Whether nobody holds a card in a slice.
pub fn is_free(record: &Record, slots: &[u8], card: usize, slice: u64) -> bool {
    let frame = u64::from(record.plan.frame.max(1));
    let at = usize::try_from(slice % frame)
        .ok()
        .map(|slice| card * usize::from(record.plan.frame) + slice);
    at.and_then(|at| slots.get(at))
        .is_none_or(|slot| *slot == 0)
}

/// A kind's units, a letter for each slice.
fn marks(record: &Record, kind: usize) -> Vec<char> {
    let mut marks = vec![' '; record.rows.len()];
    for unit in record.units().into_iter().filter(|unit| unit.kind == kind) {
        let mut left = unit.length;
        for slice in unit.at..unit.due.min(record.slices) {
            let serves = record.serves(slice, kind);
            let mark = match (slice == unit.at, slice + 1 == unit.due, serves) {
                (true, true, _) => '*',
                (true, _, true) => 'R',
                (true, _, false) => 'r',
                (_, true, true) => 'D',
                (_, true, false) => 'd',
                (_, _, true) => '=',
                (_, _, false) if left == 0 => '.',
                (_, _, false) => '-',
            };
            left = left.saturating_sub(u64::from(serves));
            if let Some(place) = usize::try_from(slice)
                .ok()
                .and_then(|slice| marks.get_mut(slice))
            {
                *place = mark;
            }
        }
    }
    marks
}
