//! "Tell me the smallest budget", document 02's request (i).

use crate::answer::Answer;
use crate::layout::h_of_cells;
use crate::plan::{
    budgets_sum_above, first_bad_kind, first_bad_project, header_out_of_range,
    unused_place_not_zero, Plan,
};
use crate::verdict::{excess, least_k};

/// "Leave one project's budget open and give the least B, from 1 to qF, at which all its unit kinds fit".
pub fn smallest_budget(plan: &Plan, project: u64) -> (Answer, u64) {
    match smallest_or_refuse(plan, project) {
        Ok(budget) => (Answer::GOOD, budget),
        // "any plan, figure or place that its answer carries is zero when refused".
        Err(answer) => (answer, 0),
    }
}

fn smallest_or_refuse(plan: &Plan, project: u64) -> Result<u64, Answer> {
    // "Refusals: 2, 3, then 27 for a project not below p".
    if header_out_of_range(plan) {
        return Err(Answer::refused(2));
    }
    if unused_place_not_zero(plan) {
        return Err(Answer::refused(3));
    }
    if project >= u64::from(plan.p) {
        return Err(Answer::refused(27));
    }
    let open = project as usize;
    // "the rest of the record order, 4 skipping that one budget, without 7".
    if let Some(answer) = first_bad_project(plan, Some(open)) {
        return Err(answer);
    }
    if let Some(answer) = first_bad_kind(plan) {
        return Err(answer);
    }
    // "the least B, from 1 to qF, at which all its unit kinds fit".
    let most = u64::from(plan.projects[open].ceiling) * u64::from(plan.frame);
    for b in 1..=most {
        if first_with_no_k(plan, open, b).is_none() {
            // "then 7 when the least B makes the sum too large".
            if budgets_sum_above(&with_budget(plan, open, b)) {
                return Err(Answer::refused(7));
            }
            return Ok(b);
        }
    }
    // "then 8 exactly when no B up to qF serves (place and excess at qF)".
    let place = first_with_no_k(plan, open, most).unwrap_or(0);
    let held = held_with(plan, open, most);
    let (excess, slice) = excess(plan, &held, place);
    Err(Answer::not_admitted(place, excess, slice))
}

/// The plan with this budget for the open project.
fn with_budget(plan: &Plan, open: usize, b: u64) -> Plan {
    let mut plan = *plan;
    plan.projects[open].budget = b as u16;
    plan
}

/// The cards that the open project holds with this budget: its cells follow those of the projects before it.
fn held_with(plan: &Plan, open: usize, b: u64) -> Vec<u64> {
    let mut first = 0u64;
    for project in &plan.projects[..open] {
        first += u64::from(project.budget);
    }
    h_of_cells(plan.frame, first, b)
}

/// The first of the open project's kinds with no k at this budget; "others are not judged".
fn first_with_no_k(plan: &Plan, open: usize, b: u64) -> Option<usize> {
    let held = held_with(plan, open, b);
    for (i, kind) in plan.used_kinds().iter().enumerate() {
        if usize::from(kind.project) == open && least_k(plan, &held, i).is_none() {
            return Some(i);
        }
    }
    None
}
