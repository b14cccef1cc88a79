//! A tuned program of the same rules, to know what the proof costs: the state changed in place, records
//! checked at each call as the rules want, no images, and sliding windows for the supply.
//!
//! Its records are the second program's. It answers with the same word as the C interface.

use second::{KindState, Plan, State};

/// The word of a refusal.
fn refused(number: u64, place: usize) -> u64 {
    number | (place as u64) << 8
}

/// Is the plan in order?
pub fn check(plan: &Plan) -> u64 {
    if sizes_out_of_range(plan) {
        return 2;
    }
    match unused_not_zero(plan) {
        true => 3,
        false => ranges(plan),
    }
}

/// 3, of a plan whose sizes are in range.
fn unused_not_zero(plan: &Plan) -> bool {
    let (p, n) = (usize::from(plan.p), usize::from(plan.n));
    plan.projects[p..]
        .iter()
        .any(|one| (one.ceiling, one.budget) != (0, 0))
        || plan.kinds[n..]
            .iter()
            .any(|one| (one.project, one.separation, one.deadline, one.length) != (0, 0, 0, 0))
}

fn sizes_out_of_range(plan: &Plan) -> bool {
    plan.m.wrapping_sub(1) >= 8
        || plan.p.wrapping_sub(1) >= 8
        || plan.n.wrapping_sub(1) >= 16
        || plan.frame.wrapping_sub(1) >= 64
}

/// 4 to 7, of a plan whose sizes are in range.
fn ranges(plan: &Plan) -> u64 {
    let frame = u32::from(plan.frame);
    let mut sum = 0;
    for (place, project) in plan.projects.iter().take(usize::from(plan.p)).enumerate() {
        let (q, b) = (u32::from(project.ceiling), u32::from(project.budget));
        if q == 0 || q > u32::from(plan.m) || b == 0 || b > q * frame {
            return refused(4, place);
        }
        sum += b;
    }
    for (place, kind) in plan.kinds.iter().take(usize::from(plan.n)).enumerate() {
        if kind.project >= plan.p {
            return refused(5, place);
        }
        let (t, d, c) = (kind.separation, kind.deadline, kind.length);
        if c == 0 || c > d || d > t || t > 4095 {
            return refused(6, place);
        }
    }
    match sum > u32::from(plan.m) * frame {
        true => 7,
        false => 0,
    }
}

/// Reads plan bytes; the plan is changed on a good answer only.
pub fn read(bytes: &[u8], plan: &mut Plan) -> u64 {
    let Some(&[first, second, third]) = bytes.first_chunk() else {
        return 1;
    };
    let mut found = Plan {
        m: first >> 4,
        p: first & 15,
        n: second >> 3,
        frame: (second & 7) << 4 | third >> 4,
        ..Plan::default()
    };
    if sizes_out_of_range(&found) {
        return 2;
    }
    let (p, n) = (usize::from(found.p), usize::from(found.n));
    let total = 3 + 2 * p + 5 * n;
    let Some(body) = bytes.get(3..total) else {
        return 1;
    };
    let (projects, kinds) = body.split_at(2 * p);
    let mut spare = u64::from(third & 15);
    for (place, bytes) in found.projects.iter_mut().zip(projects.chunks_exact(2)) {
        let bits = u16::from(bytes[0]) << 8 | u16::from(bytes[1]);
        place.ceiling = (bits >> 12) as u8;
        place.budget = bits >> 2 & 0x3FF;
        spare |= u64::from(bits & 3);
    }
    for (place, bytes) in found.kinds.iter_mut().zip(kinds.chunks_exact(5)) {
        let bits = bytes
            .iter()
            .fold(0, |bits, &byte| bits << 8 | u64::from(byte));
        place.project = (bits >> 37) as u8;
        place.separation = (bits >> 25 & 0xFFF) as u16;
        place.deadline = (bits >> 13 & 0xFFF) as u16;
        place.length = (bits >> 1 & 0xFFF) as u16;
        spare |= bits & 1;
    }
    if spare != 0 {
        return 3;
    }
    let word = ranges(&found);
    if word != 0 {
        return word;
    }
    *plan = found;
    (total as u64) << 16
}

/// The cards that a project holds from `first` on, with `budget` cells: the lowest, and how many, at one slice.
fn cards(first: u32, budget: u32, frame: u32, slice: u32) -> (u32, u32) {
    let lowest = (first + frame - 1 - slice) / frame;
    (
        lowest,
        (first + budget + frame - 1 - slice) / frame - lowest,
    )
}

/// The word of 8: by so many slices, worst from this slice on.
fn not_admitted(place: usize, (least, slice): (u32, usize)) -> u64 {
    refused(8, place) | u64::from(least) << 32 | (slice as u64) << 56
}

/// Judges the plan: the least k of each kind, then the slice of each; changed on a good answer only.
pub fn verdict(plan: &Plan, k: &mut [u8; 32]) -> u64 {
    let word = check(plan);
    if word != 0 {
        return word;
    }
    // The cards that each project holds at each slice, two frames long so that a window never wraps.
    let mut held = [[0u8; 128]; 8];
    let mut first = 0;
    for (project, held) in plan
        .projects
        .iter()
        .take(usize::from(plan.p))
        .zip(&mut held)
    {
        let budget = u32::from(project.budget);
        hold(held, first, budget, plan.frame);
        first += budget;
    }
    let mut found = [0; 32];
    for i in 0..usize::from(plan.n) {
        let held = &held[usize::from(plan.kinds[i].project)];
        match fit(plan, held, i, workload(plan, i)) {
            Ok((width, slice)) => {
                found[i] = width;
                found[16 + i] = slice as u8;
            }
            Err(over) => return not_admitted(i, over),
        }
    }
    *k = found;
    0
}

/// The cards held at each slice by cells from `first` on, for two frames.
fn hold(held: &mut [u8; 128], first: u32, budget: u32, frame: u8) {
    let (once, twice) = held.split_at_mut(usize::from(frame));
    for (slice, (one, other)) in once.iter_mut().zip(twice).enumerate() {
        let (_, count) = cards(first, budget, u32::from(frame), slice as u32);
        *one = count as u8;
        *other = count as u8;
    }
}

/// What the other kinds of its project may ask for within a kind's deadline, by document 000's equation 3.
fn workload(plan: &Plan, i: usize) -> u32 {
    let kinds = &plan.kinds[..usize::from(plan.n)];
    let kind = &kinds[i];
    let d = u32::from(kind.deadline);
    let mut w = 0;
    for (j, other) in kinds.iter().enumerate() {
        if j != i && other.project == kind.project {
            let (t, c) = (u32::from(other.separation), u32::from(other.length));
            let whole = (d + t - u32::from(other.deadline)) / t;
            w += whole * c + c.min(d.saturating_sub(whole * t));
        }
    }
    w
}

/// The least k at which a kind fits, or by how much it is too long for the k that allows most; with the slice of that k.
fn fit(plan: &Plan, held: &[u8; 128], i: usize, w: u32) -> Result<(u8, usize), (u32, usize)> {
    let kind = &plan.kinds[i];
    let length = u32::from(kind.length);
    // Nothing allows so much: the first k that allows any length is taken.
    let (mut least, mut first) = (length + 1, 0);
    for width in 1..=plan.projects[usize::from(kind.project)].ceiling {
        let asked = u32::from(width) * length + w;
        let (supply, slice) = supply(
            held,
            usize::from(plan.frame),
            width,
            usize::from(kind.deadline),
        );
        if asked <= supply {
            return Ok((width, slice));
        }
        if let Some(room) = supply.checked_sub(w) {
            let over = length - room / u32::from(width);
            if over < least {
                (least, first) = (over, slice);
            }
        }
    }
    Err((least.min(length), first))
}

/// The smallest budget of a project, by halving; its cells are laid from cell 0 on, which leaves the supply as it is.
pub fn smallest_budget(plan: &Plan, project: u64) -> u64 {
    if sizes_out_of_range(plan) {
        return 2;
    }
    if unused_not_zero(plan) {
        return 3;
    }
    if project >= u64::from(plan.p) {
        return 27;
    }
    let open = project as usize & 7;
    let mut filled = *plan;
    filled.projects[open].budget = 1;
    let word = ranges(&filled);
    if word != 0 && word != 7 {
        return word;
    }
    let mut loads = [0; 16];
    let mut own = 0u32;
    for i in 0..usize::from(plan.n) {
        if u64::from(plan.kinds[i].project) == project {
            own |= 1 << i;
            loads[i] = workload(plan, i);
        }
    }
    let mut held = [0; 128];
    let mut unfit = |budget: u32| {
        hold(&mut held, 0, budget, plan.frame);
        let mut judged = own;
        while judged != 0 {
            let i = judged.trailing_zeros() as usize & 15;
            judged &= judged - 1;
            if let Err(over) = fit(plan, &held, i, loads[i]) {
                return Some((i, over));
            }
        }
        None
    };
    let (mut below, mut least) = (
        0,
        u32::from(plan.projects[open].ceiling) * u32::from(plan.frame),
    );
    if let Some((i, over)) = unfit(least) {
        return not_admitted(i, over);
    }
    while least - below > 1 {
        let half = (below + least) / 2;
        match unfit(half) {
            Some(_) => below = half,
            None => least = half,
        }
    }
    filled.projects[open].budget = least as u16;
    match ranges(&filled) {
        0 => u64::from(least) << 16,
        word => word,
    }
}

/// S(k,t): whole frames, and the least window of what is left of t; and the first start of such a window.
fn supply(held: &[u8; 128], frame: usize, width: u8, t: usize) -> (u32, usize) {
    let (whole, rest) = (t / frame, t % frame);
    let capped = |&cards: &u8| u32::from(cards.min(width));
    let in_frame: u32 = held[..frame].iter().map(capped).sum();
    let (mut least, mut first) = (0, 0);
    if rest > 0 {
        let mut window: u32 = held[..rest].iter().map(capped).sum();
        least = window;
        let (leaving, entering) = (&held[..frame - 1], &held[rest..rest + frame - 1]);
        for (before, (out, into)) in leaving.iter().zip(entering).enumerate() {
            window = window + capped(into) - capped(out);
            if window < least {
                (least, first) = (window, before + 1);
            }
        }
    }
    (whole as u32 * in_frame + least, first)
}

/// Starts fresh; the state is changed on a good answer only.
pub fn fresh(plan: &Plan, state: &mut State) -> u64 {
    let word = verdict(plan, &mut [0; 32]);
    if word == 0 {
        *state = State {
            plan: *plan,
            ..State::default()
        };
    }
    word
}

/// The record order, 10 and 16.
fn state_check(state: &State) -> u64 {
    let word = check(&state.plan);
    if word != 0 {
        return word;
    }
    if state.slice >= state.plan.frame {
        return 10;
    }
    let (p, n) = (usize::from(state.plan.p), usize::from(state.plan.n));
    let mut sums = [0; 8];
    for (unit, kind) in state.kinds.iter().zip(&state.plan.kinds).take(n) {
        let in_form = match unit.released {
            true => {
                let late = unit.left > 0 && unit.gone >= kind.deadline;
                unit.gone <= kind.separation && unit.left <= kind.length && !late
            }
            false => unit.gone == 0 && unit.left == 0,
        };
        if !in_form {
            return 10;
        }
        sums[usize::from(kind.project) & 7] += unit.left;
    }
    let unused = &state.kinds[n..];
    if unused.iter().any(|&unit| unit != KindState::default()) {
        return 10;
    }
    if state.sums[p..].iter().any(|&sum| sum != 0) {
        return 10;
    }
    match state.sums == sums {
        true => 0,
        false => 16,
    }
}

/// Releases a unit of a kind, in place.
pub fn release(state: &mut State, kind: u64, e: u64) -> u64 {
    let word = state_check(state);
    if word != 0 {
        return word;
    }
    if kind >= u64::from(state.plan.n) {
        return 12;
    }
    let of_plan = &state.plan.kinds[kind as usize & 15];
    let unit = &mut state.kinds[kind as usize & 15];
    if e == 0 || e > u64::from(of_plan.length) {
        return 13;
    }
    if unit.released && unit.gone < of_plan.separation {
        return 14;
    }
    *unit = KindState {
        released: true,
        gone: 0,
        left: e as u16,
    };
    state.sums[usize::from(of_plan.project) & 7] += e as u16;
    0
}

/// Shows the row of the next slice.
pub fn show(state: &State, row: &mut [u8]) -> u64 {
    let word = state_check(state);
    if word != 0 {
        return word;
    }
    let Some(row) = row.get_mut(..usize::from(state.plan.m)) else {
        return 9;
    };
    row.fill(0);
    seated(state, |card, i| row[card] = i as u8 + 1);
    0
}

/// Runs a slice, in place.
pub fn advance(state: &mut State) -> u64 {
    let word = state_check(state);
    if word != 0 {
        return word;
    }
    let mut kinds = 0u32;
    seated(state, |_, i| kinds |= 1 << i);
    while kinds != 0 {
        let i = kinds.trailing_zeros() as usize & 15;
        state.kinds[i].left -= 1;
        state.sums[usize::from(state.plan.kinds[i].project) & 7] -= 1;
        kinds &= kinds - 1;
    }
    let n = usize::from(state.plan.n);
    for (unit, kind) in state.kinds.iter_mut().zip(&state.plan.kinds).take(n) {
        unit.gone = (unit.gone + u16::from(unit.released)).min(kind.separation);
    }
    state.slice += 1;
    if state.slice == state.plan.frame {
        state.slice = 0;
    }
    0
}

/// Gives each card that is taken in the next slice, and the kind that takes it.
fn seated(state: &State, mut seat: impl FnMut(usize, usize)) {
    let plan = &state.plan;
    // For each project the kinds with slices left, a bit each; and the slices until each is due.
    let mut working = [0u32; 8];
    let mut until = [0u16; 16];
    let n = usize::from(plan.n);
    for (i, (unit, kind)) in state.kinds.iter().zip(&plan.kinds).take(n).enumerate() {
        working[usize::from(kind.project) & 7] |= u32::from(unit.left > 0) << i;
        // Below the deadline where it is looked at.
        until[i] = kind.deadline.wrapping_sub(unit.gone);
    }
    let frame = u32::from(plan.frame);
    let now = u32::from(state.slice);
    let mut first = 0;
    for (project, mut waiting) in plan.projects.iter().zip(working).take(usize::from(plan.p)) {
        let budget = u32::from(project.budget);
        let (lowest, count) = cards(first, budget, frame, now);
        first += budget;
        for card in lowest..lowest + count {
            let Some(best) = earliest(waiting, &until) else {
                break;
            };
            waiting &= !(1 << best);
            seat(card as usize, best);
        }
    }
}

/// The kind that is due first among those that wait, the lower number on a tie.
fn earliest(mut waiting: u32, until: &[u16; 16]) -> Option<usize> {
    let mut best = waiting.checked_ilog2()? as usize & 15;
    while waiting != 0 {
        let i = waiting.trailing_zeros() as usize & 15;
        waiting &= waiting - 1;
        if (until[i], i) < (until[best], best) {
            best = i;
        }
    }
    Some(best)
}
