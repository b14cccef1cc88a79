//! "Running": the state, the fresh start, the release, and the slice as document 02's request (iv) splits it; with "the row of
//! sums" that request (vii) keeps, and without the clock that request (ix) replaces. Its old form is `absolute_clock`.

use crate::answer::Answer;
use crate::layout::{cards_held, cells};
use crate::plan::{check, Plan};
use crate::verdict::verdict;

/// "for each kind: whether ever released, the clock at its last accepted release, and slices left", "each release clock [replaced]
/// by the slices gone since then, held at T".
#[derive(Clone, Copy, Debug, Default, PartialEq, Eq, Hash)]
pub struct KindState {
    /// "whether ever released".
    pub released: bool,
    /// "the slices gone since then, held at T".
    pub gone: u16,
    /// "slices left".
    pub left: u16,
}

/// "The state holds the plan, a clock (0..1,000,000,000) and for each kind"; the clock: "Replace it by the slice within the frame".
#[derive(Clone, Copy, Debug, Default, PartialEq, Eq, Hash)]
pub struct State {
    /// "The state holds the plan".
    pub plan: Plan,
    /// "the slice within the frame".
    pub slice: u8,
    /// "and for each kind"; "places beyond n zero".
    pub kinds: [KindState; 16],
    /// "Keep each sum in the state": the stored row, a place for each project.
    pub sums: [u16; 8],
}

/// "For form, the slice is below F and slices gone are at most T, 0 if never released, and below D where work is left"; the rest as
/// it was: "left <= C; places beyond n zero"; "A sum beyond p that is not zero is 10."
pub fn in_form(state: &State) -> bool {
    // "the slice is below F".
    if state.slice >= state.plan.frame {
        return false;
    }
    for (i, kind_state) in state.kinds.iter().enumerate() {
        if i >= usize::from(state.plan.n) {
            // "places beyond n zero".
            if kind_state.released || kind_state.gone != 0 || kind_state.left != 0 {
                return false;
            }
        } else if !kind_state.released {
            // "0 if never released"; "a kind never released has [...] left 0".
            if kind_state.gone != 0 || kind_state.left != 0 {
                return false;
            }
        } else {
            let kind = state.plan.kinds[i];
            // "slices gone are at most T"; "left <= C".
            if kind_state.gone > kind.separation || kind_state.left > kind.length {
                return false;
            }
            // "and below D where work is left".
            if kind_state.left > 0 && kind_state.gone >= kind.deadline {
                return false;
            }
        }
    }
    // "A sum beyond p that is not zero is 10."
    for (project, sum) in state.sums.iter().enumerate() {
        if project >= usize::from(state.plan.p) && *sum != 0 {
            return false;
        }
    }
    true
}

/// "slices left per project", added up anew: "the sum of what is left".
pub fn sum_of_what_is_left(state: &State, project: usize) -> u64 {
    let mut sum = 0u64;
    for (i, kind) in state.plan.used_kinds().iter().enumerate() {
        if usize::from(kind.project) == project {
            sum += u64::from(state.kinds[i].left);
        }
    }
    sum
}

impl State {
    /// A state made by hand, its stored row as "the sum of what is left"; a sum too wide for its place keeps its low bits.
    pub fn summed(mut self) -> State {
        for project in 0..self.sums.len() {
            self.sums[project] = sum_of_what_is_left(&self, project) as u16;
        }
        self
    }
}

/// 16: "exactly when a stored sum differs".
pub fn a_stored_sum_differs(state: &State) -> bool {
    for (project, sum) in state.sums.iter().enumerate() {
        if u64::from(*sum) != sum_of_what_is_left(state, project) {
            return true;
        }
    }
    false
}

/// The numbers of "every call that takes a state": the record order, 10, and "16, directly after 10".
fn refused_by_the_state(state: &State) -> Option<Answer> {
    let answer = check(&state.plan);
    if !answer.is_good() {
        return Some(answer);
    }
    // 10: "state out of form".
    if !in_form(state) {
        return Some(Answer::refused(10));
    }
    // "16, directly after 10".
    if a_stored_sum_differs(state) {
        return Some(Answer::refused(16));
    }
    None
}

/// "Starting fresh and the verdict add 8"; "a refused fresh start gives an all-zero state".
pub fn fresh(plan: &Plan) -> (Answer, State) {
    let (answer, _, _) = verdict(plan);
    if !answer.is_good() {
        return (answer, State::default());
    }
    (
        Answer::GOOD,
        State {
            plan: *plan,
            slice: 0,
            kinds: [KindState::default(); 16],
            // "set by a fresh start": nothing is left yet.
            sums: [0; 8],
        },
    )
}

/// "*Release* of a kind with a length e (1..C) sets that clock and sets left to e": no slice is gone since then.
pub fn release(state: &State, kind: u64, e: u64) -> (Answer, State) {
    match release_or_refuse(state, kind, e) {
        Ok(next) => (Answer::GOOD, next),
        // "a refused slice or release gives back the state handed in".
        Err(answer) => (answer, *state),
    }
}

fn release_or_refuse(state: &State, kind: u64, e: u64) -> Result<State, Answer> {
    // "Release: the record order, 10, 12, 13, 14, 15", with 16 after 10; "11 and 15 are retired".
    if let Some(answer) = refused_by_the_state(state) {
        return Err(answer);
    }
    // 12: "kind not below n".
    if kind >= u64::from(state.plan.n) {
        return Err(Answer::refused(12));
    }
    let i = kind as usize;
    // 13: "e is 0 or above C".
    if e == 0 || e > u64::from(state.plan.kinds[i].length) {
        return Err(Answer::refused(13));
    }
    // 14: "released before, and fewer than T slices ago".
    if state.kinds[i].released && state.kinds[i].gone < state.plan.kinds[i].separation {
        return Err(Answer::refused(14));
    }
    let mut next = *state;
    next.kinds[i] = KindState {
        released: true,
        gone: 0,
        left: e as u16,
    };
    // "raised by a release".
    next.sums[usize::from(state.plan.kinds[i].project)] += e as u16;
    Ok(next)
}

/// The kinds of a project with slices left: "Ranking is by slices left until the deadline, with the same tie rule", "by lower kind
/// number".
pub fn ranked(state: &State, project: usize) -> Vec<usize> {
    let mut ranked: Vec<(i64, usize)> = Vec::new();
    for (i, kind) in state.plan.used_kinds().iter().enumerate() {
        if usize::from(kind.project) == project && state.kinds[i].left > 0 {
            let until = i64::from(kind.deadline) - i64::from(state.kinds[i].gone);
            ranked.push((until, i));
        }
    }
    ranked.sort();
    ranked.into_iter().map(|(_, i)| i).collect()
}

/// "*Slice* looks at clock mod F", which the state holds: each card that is taken, and the kind that takes it.
fn chosen(state: &State) -> Vec<(usize, usize)> {
    let mut chosen = Vec::new();
    let now = u64::from(state.slice);
    let cells = cells(&state.plan);
    for project in 0..usize::from(state.plan.p) {
        // "the first h of them take that project's cards in ascending card order".
        let cards = cards_held(&cells, project, now);
        for (card, i) in cards.into_iter().zip(ranked(state, project)) {
            chosen.push((card as usize, i));
        }
    }
    chosen
}

/// "one shows the row and keeps the state".
pub fn show(state: &State, buffer: &mut [u8]) -> Answer {
    // "showing keeps the slice order with 9": the record order, 10, 16, 9; 11 is retired.
    if let Some(answer) = refused_by_the_state(state) {
        return answer;
    }
    // 9: "buffer shorter than needed".
    let m = usize::from(state.plan.m);
    if buffer.len() < m {
        return Answer::refused(9);
    }
    // "The row written has m bytes: kind number plus 1, or 0."
    buffer[..m].fill(0);
    for (card, i) in chosen(state) {
        buffer[card] = i as u8 + 1;
    }
    Answer::GOOD
}

/// "the other advances with no buffer".
pub fn advance(state: &State) -> (Answer, State) {
    // "advancing drops 9": the record order, 10, 16; 11 is retired.
    if let Some(answer) = refused_by_the_state(state) {
        return (answer, *state);
    }
    let mut next = *state;
    for (_, i) in chosen(state) {
        // "Each chosen kind's left falls by one".
        next.kinds[i].left -= 1;
        // "lowered by an advance".
        next.sums[usize::from(state.plan.kinds[i].project)] -= 1;
    }
    // "the slices gone since then, held at T".
    for (i, kind) in state.plan.used_kinds().iter().enumerate() {
        if state.kinds[i].released && state.kinds[i].gone < kind.separation {
            next.kinds[i].gone += 1;
        }
    }
    // "the clock rises by one", "the slice within the frame".
    next.slice = (state.slice + 1) % state.plan.frame;
    (Answer::GOOD, next)
}

/// A slice by the pair: shown, and advanced where the showing is accepted.
pub fn slice(state: &State, buffer: &mut [u8]) -> (Answer, State) {
    let shown = show(state, buffer);
    if !shown.is_good() {
        return (shown, *state);
    }
    advance(state)
}
