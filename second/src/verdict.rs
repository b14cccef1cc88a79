//! "Verdict": the least k at which each kind fits, or the first kind with none and its excess.

use crate::answer::Answer;
use crate::layout::h;
use crate::plan::{check, Plan};
use crate::supply::supply_and_slice;

/// Document 000's equation 3, with the separation T, deadline D and length C of a kind: "floor((t + (T - D))/T)C + CI(t), where
/// CI(t) = min{C, max{0, t - floor((t + (T - D))/T)T}}".
pub fn part(separation: u64, deadline: u64, length: u64, t: u64) -> u64 {
    // Outside C <= D <= T, which only an unchecked plan has, a deadline beyond the separation counts as the separation, and a
    // separation of 0 has no whole units.
    let n = (t + separation.saturating_sub(deadline))
        .checked_div(separation)
        .unwrap_or(0);
    let carry_in = length.min(t.saturating_sub(n * separation));
    n * length + carry_in
}

/// W, "the sum over every other kind j of the same project" of "each kind's part of W by that equation, with t the judged kind's
/// deadline".
pub fn workload(plan: &Plan, i: usize) -> u64 {
    let kinds = plan.used_kinds();
    let Some(kind) = kinds.get(i) else { return 0 };
    let t = u64::from(kind.deadline);
    let mut w = 0u64;
    for (j, other) in kinds.iter().enumerate() {
        if j != i && other.project == kind.project {
            w += part(
                u64::from(other.separation),
                u64::from(other.deadline),
                u64::from(other.length),
                t,
            );
        }
    }
    w
}

/// The two sides of "Kind i fits at k when kCi + W <= S(k,Di)", with S on the plan's layout: what it asks for and what is there.
pub fn asked_and_supplied(plan: &Plan, i: usize, k: u64) -> (u64, u64) {
    let held = held_by_its_project(plan, i);
    let (asked, supplied, _) = asked_and_supplied_on(plan, &held, i, k);
    (asked, supplied)
}

/// The same with S on these cards held, and the slice that comes with S.
fn asked_and_supplied_on(plan: &Plan, held: &[u64], i: usize, k: u64) -> (u64, u64, u64) {
    let Some(kind) = plan.used_kinds().get(i) else {
        return (0, 0, 0);
    };
    let asked = k * u64::from(kind.length) + workload(plan, i);
    let (supplied, slice) = supply_and_slice(held, k, u64::from(kind.deadline));
    (asked, supplied, slice)
}

/// "Let h(s) be the cards a project holds at slice s", of the kind's project.
fn held_by_its_project(plan: &Plan, i: usize) -> Vec<u64> {
    match plan.used_kinds().get(i) {
        Some(kind) => h(plan, usize::from(kind.project)),
        None => Vec::new(),
    }
}

/// The ceiling of the kind's project: "for k in 1..q".
pub fn ceiling_of(plan: &Plan, i: usize) -> u64 {
    let Some(kind) = plan.used_kinds().get(i) else {
        return 0;
    };
    match plan.used_projects().get(usize::from(kind.project)) {
        Some(project) => u64::from(project.ceiling),
        None => 0,
    }
}

/// "The verdict gives for each kind the least such k", here on these cards held, with the slice "for the k it names".
pub fn least_k(plan: &Plan, held: &[u64], i: usize) -> Option<(u64, u64)> {
    for k in 1..=ceiling_of(plan, i) {
        let (asked, supplied, slice) = asked_and_supplied_on(plan, held, i, k);
        if asked <= supplied {
            return Some((k, slice));
        }
    }
    None
}

/// "C minus the greatest C' of at least 0 with kC' + W <= S(k,D) for some k, or the whole C where there is none" (of a kind that
/// fits at no k, so that C' is below C), here on these cards held; with the slice "of the least k that allows C', or 0 without one".
pub fn excess(plan: &Plan, held: &[u64], i: usize) -> (u64, u64) {
    let Some(kind) = plan.used_kinds().get(i) else {
        return (0, 0);
    };
    let c = u64::from(kind.length);
    let w = workload(plan, i);
    let mut supplies = Vec::new();
    for k in 1..=ceiling_of(plan, i) {
        supplies.push((k, supply_and_slice(held, k, u64::from(kind.deadline))));
    }
    for shorter in (0..c).rev() {
        for &(k, (supplied, slice)) in &supplies {
            if k * shorter + w <= supplied {
                return (c - shorter, slice);
            }
        }
    }
    (c, 0)
}

/// "Starting fresh and the verdict add 8"; "A refused verdict gives k 0 for every kind", and the slice is 0 "beside a k of 0".
pub fn verdict(plan: &Plan) -> (Answer, [u8; 16], [u8; 16]) {
    let answer = check(plan);
    if !answer.is_good() {
        return (answer, [0; 16], [0; 16]);
    }
    let mut ks = [0; 16];
    let mut slices = [0; 16];
    for i in 0..usize::from(plan.n) {
        let held = held_by_its_project(plan, i);
        match least_k(plan, &held, i) {
            Some((k, slice)) => {
                ks[i] = k as u8;
                slices[i] = slice as u8;
            }
            None => {
                // 8: "first kind with no k, with its excess".
                let (excess, slice) = excess(plan, &held, i);
                return (Answer::not_admitted(i, excess, slice), [0; 16], [0; 16]);
            }
        }
    }
    (Answer::GOOD, ks, slices)
}
