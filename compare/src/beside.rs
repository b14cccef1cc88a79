//! The old rules beside the new ones: runs from a fresh start, over many frames and over separations to the end of their range.
//!
//! "From a fresh start on an admitted plan, rows and refusals equal the old ones wherever the old clock hadn't ended." Each call of a
//! run is made by the old rules first, the second program's other mode. Their answer and their row, with the state that stands
//! beside theirs, is what the compared side and the second program must both give.

use crate::cases::numbered;
use crate::interface::{plan_image, state_image, word, Case, Op, Outcome, STATE_IMAGE};
use second::absolute_clock::{self, LAST_CLOCK};
use second::play::{command, Command};
use second::{KindState, State};

/// How much was run beside the old rules.
#[derive(Clone, Copy, Debug, Default, PartialEq, Eq)]
pub struct Beside {
    /// Runs.
    pub runs: u64,
    /// Their calls.
    pub calls: u64,
    /// The frames that they passed.
    pub frames: u64,
    /// The longest separation after which a kind was released again.
    pub longest: u64,
}

impl Beside {
    /// Adds another count.
    pub fn add(&mut self, other: &Beside) {
        self.runs += other.runs;
        self.calls += other.calls;
        self.frames += other.frames;
        self.longest = self.longest.max(other.longest);
    }

    /// The counts in a line.
    pub fn in_words(&self) -> String {
        format!(
            "old rules: {} runs from a fresh start ({} calls, {} frames passed, units up to {} slices apart)",
            self.runs, self.calls, self.frames, self.longest
        )
    }
}

/// The state that stands beside an old one: the slice is the clock within the frame, what is gone the lesser of T and the clock less
/// the release clock, 0 where there was none.
pub fn beside(old: &absolute_clock::State) -> State {
    let frame = u32::from(old.plan.frame).max(1);
    let mut state = State {
        plan: old.plan,
        slice: (old.clock % frame) as u8,
        kinds: [KindState::default(); 16],
        sums: old.sums,
    };
    for (i, place) in old.kinds.iter().enumerate() {
        let t = u32::from(old.plan.kinds[i].separation);
        state.kinds[i] = KindState {
            released: place.released,
            gone: match place.released {
                true => t.min(old.clock - place.at) as u16,
                false => 0,
            },
            left: place.left,
        };
    }
    state
}

/// The calls of one run and what the old rules give for each, up to the first for which `each` gives something; the same seed gives
/// the same runs.
pub fn run<T>(
    seed: u64,
    at: u64,
    told: &mut Beside,
    mut each: impl FnMut(Case, Outcome) -> Option<T>,
) -> Option<T> {
    let mut g = numbered(seed ^ 0x01DC_10C4_0000_0000, at);
    let long = at.is_multiple_of(4);
    let plan = match long {
        true => g.long_plan(),
        false => g.admitted_plan(),
    };
    told.runs += 1;
    told.calls += 1;
    let (answer, mut old) = absolute_clock::fresh(&plan);
    let case = Case::new(
        Op::Fresh,
        plan_image(&plan).to_vec(),
        vec![0xEE; STATE_IMAGE],
    );
    let mut expected = kept(&case, word(answer, 0));
    if answer.is_good() {
        expected.lent = state_image(&beside(&old)).to_vec();
    }
    let found = each(case, expected);
    if found.is_some() || !answer.is_good() {
        return found;
    }

    let commands = match long {
        // Twice the longest separation, or less.
        true => {
            let slices = g.between(1_000, 9_000);
            g.patient_run(beside(&old), slices)
        }
        false => {
            let count = g.between(20, 600);
            g.run(beside(&old), count).0
        }
    };
    let m = usize::from(plan.m);
    for bytes in commands.chunks_exact(3) {
        let image = state_image(&beside(&old)).to_vec();
        match command(bytes) {
            Command::Release { kind, e } => {
                told.calls += 1;
                let (answer, next) = absolute_clock::release(&old, kind, e);
                let before = old.kinds.get(kind as usize);
                if answer.is_good() && before.is_some_and(|place| place.released) {
                    let t = u64::from(plan.kinds[kind as usize].separation);
                    told.longest = told.longest.max(t);
                }
                let case = Case::release(image, kind, e);
                let expected = Outcome {
                    given: state_image(&beside(&next)).to_vec(),
                    ..kept(&case, word(answer, 0))
                };
                old = next;
                let found = each(case, expected);
                if found.is_some() {
                    return found;
                }
            }
            _ if old.clock == LAST_CLOCK => return None,
            _ => {
                // Of a long run not each slice is shown, and sometimes with too short a row.
                if !long || g.one_in(4) {
                    told.calls += 1;
                    let room = match g.below(16) {
                        0 => m - 1,
                        1 => m + 1,
                        _ => m,
                    };
                    let case = Case::new(Op::Show, image.clone(), vec![0xEE; room]);
                    let mut row = case.lent.clone();
                    let answer = absolute_clock::show(&old, &mut row);
                    let expected = Outcome {
                        lent: row,
                        ..kept(&case, word(answer, 0))
                    };
                    let found = each(case, expected);
                    if found.is_some() {
                        return found;
                    }
                }
                told.calls += 1;
                let (answer, next) = absolute_clock::advance(&old);
                let case = Case::new(Op::Advance, image, Vec::new());
                let expected = Outcome {
                    given: state_image(&beside(&next)).to_vec(),
                    ..kept(&case, word(answer, 0))
                };
                told.frames += u64::from(next.clock % u32::from(plan.frame) == 0);
                old = next;
                let found = each(case, expected);
                if found.is_some() {
                    return found;
                }
            }
        }
    }
    None
}

/// A call with this word that keeps every byte.
fn kept(case: &Case, word: u64) -> Outcome {
    Outcome {
        word,
        given: case.given.clone(),
        lent: case.lent.clone(),
        list: case.list.clone(),
        outside: false,
    }
}
