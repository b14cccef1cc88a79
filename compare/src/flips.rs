//! Flipped bits: each bit of each stored sum and of each kind's slices left, in states that runs from a fresh start reach.
//!
//! Every call on such a state is compared like any other. Beside that it is held to document 02, of the compared side alone: the next
//! call must say so. A flip counts as told where a release, a showing and an advance all answer 10, or all 16, and keep every byte.

use crate::cases::{numbered, Record};
use crate::interface::{
    number, state_image, Case, Op, Outcome, STATE_IMAGE, SUMS_AT, UNIT, UNITS_AT,
};
use generate::Generator;
use second::play::{command, Command};
use second::State;

/// The bits that are flipped in each state, as the byte and the bit in it: those of 8 sums and of 16 slices left.
fn bits() -> impl Iterator<Item = (usize, u8)> {
    let sums = (0..8).map(|place| SUMS_AT + 2 * place);
    let left = (0..16).map(|place| UNITS_AT + UNIT * place + 3);
    let bytes = sums.chain(left).flat_map(|at| [at, at + 1]);
    bytes.flat_map(|at| (0..8).map(move |bit| (at, bit)))
}

/// At most so many states of one run.
pub const STATES_A_RUN: u64 = 25;

/// What became of the flips.
#[derive(Clone, Copy, Debug, Default, PartialEq, Eq)]
pub struct Told {
    /// States in which each bit was flipped.
    pub states: u64,
    /// Flips.
    pub tried: u64,
    /// Flips that each call told as 10.
    pub as_10: u64,
    /// Flips that each call told as 16.
    pub as_16: u64,
    /// All others.
    pub missed: u64,
}

impl Told {
    /// Adds another count.
    pub fn add(&mut self, other: &Told) {
        self.states += other.states;
        self.tried += other.tried;
        self.as_10 += other.as_10;
        self.as_16 += other.as_16;
        self.missed += other.missed;
    }

    /// Counts a flip by its calls and their outcomes; whether it is told.
    pub fn count(&mut self, calls: &[(Case, Outcome)]) -> bool {
        let kept = |(case, after): &(Case, Outcome)| {
            !after.outside && (&after.given, &after.lent) == (&case.given, &case.lent)
        };
        let all = |refusal: u64| {
            let told = |(_, after): &(Case, Outcome)| number(after.word) == refusal;
            calls.iter().all(told) && calls.iter().all(kept)
        };
        self.tried += 1;
        let (as_10, as_16) = (all(10), all(16));
        self.as_10 += u64::from(as_10);
        self.as_16 += u64::from(as_16);
        self.missed += u64::from(!as_10 && !as_16);
        as_10 || as_16
    }

    /// The counts in a line.
    pub fn in_words(&self) -> String {
        format!(
            "flips: {} bits in {} reached states, told as 10 {}, told as 16 {}, missed {}",
            self.tried, self.states, self.as_10, self.as_16, self.missed
        )
    }
}

/// The states of one run on an admitted plan, none twice in a row; the same seed gives the same runs.
pub fn run(seed: u64, at: u64) -> (Generator, Vec<State>) {
    let mut g = numbered(seed ^ 0x0F11_9BED_0B17_0000, at);
    let plan = g.admitted_plan();
    let (answer, mut state) = second::fresh(&plan);
    let mut states = vec![state];
    if answer.is_good() {
        let (commands, _) = g.run(state, 3 * STATES_A_RUN);
        for bytes in commands.chunks_exact(3) {
            let next = match command(bytes) {
                Command::Release { kind, e } => second::release(&state, kind, e).1,
                _ => second::advance(&state).1,
            };
            // Of a long run some are passed by.
            if next != state && g.one_in(2) {
                states.push(next);
            }
            state = next;
        }
    }
    states.truncate(STATES_A_RUN as usize);
    (g, states)
}

/// The three calls on the state as it is, accepted or not: a release may be refused by 12 to 14, a showing by 9.
pub fn calls(g: &mut Generator, state: &State) -> Record {
    let image = state_image(state).to_vec();
    let (kind, e) = g.release_numbers(state);
    let room = usize::from(state.plan.m) - 1 + g.below(3) as usize;
    vec![
        Case::release(image.clone(), kind, e),
        Case::new(Op::Show, image.clone(), vec![0xEE; room]),
        Case::new(Op::Advance, image, Vec::new()),
    ]
}

/// The same calls, once for each bit that is flipped.
pub fn flipped(calls: &[Case]) -> impl Iterator<Item = Record> + '_ {
    bits().map(|(at, bit)| {
        let mut calls = calls.to_vec();
        for case in &mut calls {
            debug_assert_eq!(case.given.len(), STATE_IMAGE);
            case.given[at] ^= 1 << bit;
        }
        calls
    })
}
