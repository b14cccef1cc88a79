//! "Layout": the cells of a frame, who holds them, and the slot table.

use crate::answer::Answer;
use crate::plan::{check, Plan};

/// "cell x is card floor(x/F), slice x mod F".
#[derive(Clone, Copy, Debug, PartialEq, Eq)]
pub struct Cell {
    /// "card floor(x/F)".
    pub card: u64,
    /// "slice x mod F".
    pub slice: u64,
    /// The project that takes the cell; "What is left is free."
    pub project: Option<usize>,
}

/// "Number the cells of a frame 0 to mF-1"; "Project 0 takes the first B cells, project 1 the next, and so on."
pub fn cells(plan: &Plan) -> Vec<Cell> {
    let m = u64::from(plan.m);
    let frame = u64::from(plan.frame);
    let mut cells = Vec::new();
    for x in 0..m * frame {
        cells.push(Cell {
            card: x / frame,
            slice: x % frame,
            project: None,
        });
    }
    let mut next = 0;
    for (number, project) in plan.used_projects().iter().enumerate() {
        for _ in 0..project.budget {
            if let Some(cell) = cells.get_mut(next) {
                cell.project = Some(number);
            }
            next += 1;
        }
    }
    cells
}

/// "that project's cards in ascending card order", at one slice of the frame.
pub fn cards_held(cells: &[Cell], project: usize, slice: u64) -> Vec<u64> {
    let mut cards = Vec::new();
    for cell in cells {
        if cell.slice == slice && cell.project == Some(project) {
            cards.push(cell.card);
        }
    }
    cards.sort();
    cards
}

/// "Let h(s) be the cards a project holds at slice s": h(0), h(1), ..., h(F-1).
pub fn h(plan: &Plan, project: usize) -> Vec<u64> {
    let mut h = vec![0; usize::from(plan.frame)];
    for cell in cells(plan) {
        if cell.project == Some(project) {
            h[cell.slice as usize] += 1;
        }
    }
    h
}

/// h(0), h(1), ..., h(F-1) of `budget` cells from cell `first` on, on as many cards as they reach: a cell's slice is "x mod F".
pub fn h_of_cells(frame: u8, first: u64, budget: u64) -> Vec<u64> {
    let mut h = vec![0; usize::from(frame)];
    for x in first..first + budget {
        h[(x % u64::from(frame)) as usize] += 1;
    }
    h
}

/// "The slot table is written card by card, F bytes each: project number plus 1, or 0 for a free cell."
pub fn slot_table(plan: &Plan, buffer: &mut [u8]) -> (Answer, usize) {
    // "Writing [...] the slot table adds 9 and not 8."
    let answer = check(plan);
    if !answer.is_good() {
        return (answer, 0);
    }
    let frame = usize::from(plan.frame);
    let needed = usize::from(plan.m) * frame;
    if buffer.len() < needed {
        return (Answer::refused(9), 0);
    }
    for cell in cells(plan) {
        let place = cell.card as usize * frame + cell.slice as usize;
        buffer[place] = match cell.project {
            Some(project) => project as u8 + 1,
            None => 0,
        };
    }
    (Answer::GOOD, needed)
}
