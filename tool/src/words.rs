//! What the library says of a plan, in words.

use crate::names::Names;
use bindings::{Answer, Plan};

/// A refusal as the player prints it.
pub fn told(answer: Answer) -> String {
    format!("refused {} at {}", answer.number, answer.place)
}

/// The smallest budget of a project; nothing where something else of the plan is refused.
pub fn smallest(plan: &Plan, names: &Names, project: usize) -> Option<String> {
    let called = names.project(project);
    match plan.smallest_budget(project as u64) {
        Ok(budget) => Some(format!(
            "budget {budget} is the smallest that serves {called}"
        )),
        Err(answer) if answer.number == 8 => Some(format!(
            "no budget serves {called}: even with all cells of its ceiling {}",
            too_long(plan, names, answer)
        )),
        Err(answer) if answer.number == 7 => Some(match beside_little(plan, project) {
            Some((budget, left)) => {
                format!("budget {budget} would serve {called}, but the others leave {left}")
            }
            None => {
                format!("the smallest budget that serves {called} is more than the others leave")
            }
        }),
        Err(_) => None,
    }
}

/// The smallest budget if the others had 1 cell each, and what they leave as it is.
fn beside_little(plan: &Plan, project: usize) -> Option<(u16, u32)> {
    let mut little = *plan;
    let mut left = u32::from(plan.cards) * u32::from(plan.frame);
    let others = little
        .project
        .iter_mut()
        .take(usize::from(plan.projects))
        .enumerate();
    for (_, other) in others.filter(|(place, _)| *place != project) {
        left = left.saturating_sub(u32::from(other.budget));
        other.budget = 1;
    }
    let budget = little.smallest_budget(project as u64).ok()?;
    Some((budget, left))
}

/// An excess in words, with the slice beside it. The answer's place is the kind.
pub fn too_long(plan: &Plan, names: &Names, answer: Answer) -> String {
    let place = usize::from(answer.place);
    let (called, excess, slice) = (names.kind(place), answer.excess, answer.slice);
    let length = plan
        .kind
        .get(place)
        .map_or(0, |kind| u32::from(kind.length));
    match length.saturating_sub(excess) {
        0 => format!("{called} would be too long at any length"),
        fits => format!(
            "{called} is too long by {excess} when it arrives in slice {slice} of the frame, and would fit with length {fits}"
        ),
    }
}

/// Why a kind does not fit, and what would help: its place, excess and slice are the answer's.
pub fn advice(plan: &Plan, names: &Names, answer: Answer) -> String {
    let project = plan
        .kind
        .get(usize::from(answer.place))
        .map_or(0, |kind| usize::from(kind.project));
    let budget = smallest(plan, names, project);
    let budget = budget.map_or(String::new(), |budget| format!("; {budget}"));
    format!("{}{budget}", too_long(plan, names, answer))
}

/// So many of something.
pub fn count(number: usize, one: &str, more: &str) -> String {
    match number {
        1 => format!("1 {one}"),
        _ => format!("{number} {more}"),
    }
}

/// Rows of a table, in columns: the first so many to the left, the others to the right.
pub fn columns(rows: &[Vec<String>], left: usize) -> String {
    let width = |column: usize| {
        let cells = rows.iter().filter_map(|row| row.get(column));
        cells.map(|cell| cell.chars().count()).max().unwrap_or(0)
    };
    let most = rows.iter().map(Vec::len).max().unwrap_or(0);
    let widths: Vec<usize> = (0..most).map(width).collect();
    let mut out = String::new();
    for row in rows {
        let mut line = String::new();
        for (column, (cell, width)) in row.iter().zip(&widths).enumerate() {
            if column > 0 {
                line.push_str("  ");
            }
            line += &match column < left {
                true => format!("{cell:<width$}"),
                false => format!("{cell:>width$}"),
            };
        }
        out.push_str(line.trim_end());
        out.push('\n');
    }
    out
}
