//! "A simple form for one-kind projects", document 02's request (vi).

use crate::answer::Answer;
use crate::plan::{budgets_sum_above, kind_in_range, Kind, Plan};
use crate::plan::{MOST_CARDS, MOST_FRAME, MOST_PROJECTS};

/// The (T, C) that bytes list, four a kind, high bytes first. Bytes that are no multiple of four are no list.
pub fn listed(bytes: &[u8]) -> Vec<(u16, u16)> {
    let mut list = Vec::new();
    if bytes.len() % 4 == 0 {
        for four in bytes.chunks(4) {
            let t = u16::from(four[0]) * 256 + u16::from(four[1]);
            let c = u16::from(four[2]) * 256 + u16::from(four[3]);
            list.push((t, c));
        }
    }
    list
}

/// "From m and a list of (T, C) they want a finished plan".
pub fn build(m: u64, list: &[(u16, u16)]) -> (Answer, Plan) {
    match build_or_refuse(m, list) {
        Ok(plan) => (Answer::GOOD, plan),
        // "any plan, figure or place that its answer carries is zero when refused".
        Err(answer) => (answer, Plan::default()),
    }
}

fn build_or_refuse(m: u64, list: &[(u16, u16)]) -> Result<Plan, Answer> {
    // "17 for m out of range or an empty list".
    if !(1..=MOST_CARDS).contains(&m) || list.is_empty() {
        return Err(Answer::refused(17));
    }
    // "18 for more than eight kinds".
    if list.len() as u64 > MOST_PROJECTS {
        return Err(Answer::refused(18));
    }
    // "6 by kind".
    for (place, &(t, c)) in list.iter().enumerate() {
        if !kind_in_range(&alone(0, t, c)) {
            return Err(Answer::refused_at(6, place));
        }
    }
    // "19 when the divisor exceeds 64".
    let frame = greatest_divisor(list);
    if frame > MOST_FRAME {
        return Err(Answer::refused(19));
    }
    let mut plan = Plan {
        m: m as u8,
        p: list.len() as u8,
        n: list.len() as u8,
        frame: frame as u8,
        ..Plan::default()
    };
    for (place, &(t, c)) in list.iter().enumerate() {
        // "Each kind becomes its own project with q 1".
        plan.projects[place].ceiling = 1;
        plan.projects[place].budget = rounded_up(frame * u64::from(c), u64::from(t)) as u16;
        plan.kinds[place] = alone(place as u8, t, c);
    }
    // "7".
    if budgets_sum_above(&plan) {
        return Err(Answer::refused(7));
    }
    Ok(plan)
}

/// "one unit kind with D = T".
fn alone(project: u8, t: u16, c: u16) -> Kind {
    Kind {
        project,
        separation: t,
        deadline: t,
        length: c,
    }
}

/// "the greatest common divisor of all separations": the first number, from the first separation downwards, that divides each.
fn greatest_divisor(list: &[(u16, u16)]) -> u64 {
    let mut divisor = u64::from(list[0].0);
    while list.iter().any(|&(t, _)| u64::from(t) % divisor != 0) {
        divisor -= 1;
    }
    divisor
}

/// "rounded up": the first number of which t make as much.
fn rounded_up(parts: u64, t: u64) -> u64 {
    let mut whole = 0;
    while whole * t < parts {
        whole += 1;
    }
    whole
}
