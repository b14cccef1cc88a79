//! Records in and out of range, states in and out of form, and what is lent or asked with them.

use crate::Generator;
use second::bytes::plan_bytes;
use second::plan::{Plan, MOST_KINDS, MOST_PROJECTS};
use second::rack::{fresh, KindState, State};

impl Generator {
    /// A plan record: admitted, good, just refused, with one to three fields spoiled, or of any fields.
    pub fn plan_record(&mut self) -> Plan {
        match self.below(16) {
            0..=5 => self.admitted_plan(),
            6 | 7 => self.good_plan(),
            8 | 9 => self.just_refused_plan(),
            10..=14 => {
                let mut plan = if self.one_in(2) {
                    self.admitted_plan()
                } else {
                    self.good_plan()
                };
                for _ in 0..self.between(1, 3) {
                    self.spoil_record(&mut plan);
                }
                plan
            }
            _ => self.arbitrary_plan(),
        }
    }

    /// A state "in form" on this plan, its sums those of what is left; most not reachable from a fresh start.
    pub fn state_in_form(&mut self, plan: &Plan) -> State {
        let last = u64::from(plan.frame).saturating_sub(1);
        let mut state = State {
            plan: *plan,
            slice: self.towards_ends(0, last) as u8,
            ..State::default()
        };
        for (kind, place) in plan.used_kinds().iter().zip(&mut state.kinds) {
            if self.one_in(4) {
                continue;
            }
            let (t, d) = (u64::from(kind.separation), u64::from(kind.deadline));
            let gone = match self.below(8) {
                0 => 0,
                1 => t,
                2 => t.saturating_sub(1),
                3 => d.saturating_sub(1),
                4 => d,
                5 => self.below(3),
                _ => self.below(t + 1),
            }
            .min(t);
            let c = u64::from(kind.length);
            let left = match self.below(4) {
                _ if gone >= d => 0,
                0 => 0,
                1 => c,
                _ => self.between(0, c),
            };
            *place = KindState {
                released: true,
                gone: gone as u16,
                left: left as u16,
            };
        }
        state.summed()
    }

    /// A state reached from a fresh start on this plan, if it is admitted; else one in form.
    pub fn state_reached(&mut self, plan: &Plan) -> State {
        let (answer, state) = fresh(plan);
        if !answer.is_good() {
            return self.state_in_form(plan);
        }
        let count = self.below(60);
        self.run(state, count).1
    }

    /// One step out of form: the slice, a kind never released, what is gone, what is left, a place beyond n, or a sum beyond p; or
    /// in form with a sum that differs. The sums go with what is left, or do not.
    fn spoil_state(&mut self, state: &mut State) {
        self.spoil_kinds(state);
        if self.one_in(2) {
            *state = state.summed();
        }
        if self.one_in(3) {
            self.spoil_sums(state);
        }
    }

    /// One or two sums that differ: by one or a bit, changed over, all in one, or any.
    fn spoil_sums(&mut self, state: &mut State) {
        let (one, other) = (self.below(8) as usize, self.below(8) as usize);
        // Mostly a project that is there.
        let used = u64::from(state.plan.p).clamp(1, MOST_PROJECTS);
        let i = match self.below(4) {
            0 => one,
            _ => self.below(used) as usize,
        };
        let sum = state.sums[i];
        match self.below(7) {
            0 => state.sums[i] = sum.wrapping_add(1),
            1 => state.sums[i] = sum.wrapping_sub(1),
            2 => state.sums[i] = sum ^ 1 << self.below(16),
            3 => state.sums.swap(i, other),
            4 => {
                let all = state
                    .sums
                    .iter()
                    .fold(0, |sum: u16, &one| sum.wrapping_add(one));
                state.sums = [0; 8];
                state.sums[i] = all;
            }
            5 => {
                // One more here and one less there: the sum of all is as it was.
                state.sums[i] = sum.wrapping_add(1);
                state.sums[other] = state.sums[other].wrapping_sub(1);
            }
            _ => state.sums[i] = self.number() as u16,
        }
    }

    fn spoil_kinds(&mut self, state: &mut State) {
        let used = u64::from(state.plan.n).clamp(1, MOST_KINDS);
        let i = self.below(used) as usize;
        let kind = state.plan.kinds[i];
        let (t, c) = (u64::from(kind.separation), u64::from(kind.length));
        match self.below(7) {
            0 => {
                let frame = u64::from(state.plan.frame);
                state.slice = self.one_of(&[frame, frame + 1, 255]).min(255) as u8
            }
            1 => {
                state.kinds[i] = KindState {
                    released: false,
                    gone: self.one_of(&[0, 1, 2, t]) as u16,
                    left: self.below(3) as u16,
                }
            }
            2 => {
                state.kinds[i].released = true;
                state.kinds[i].gone = self.one_of(&[t + 1, t + 2, 4096, 65535]).min(65535) as u16;
            }
            // Work left, with D slices gone, one more or one less.
            6 => {
                let gone = self.one_of(&[0, 1, 2]) + u64::from(kind.deadline);
                state.kinds[i] = KindState {
                    released: true,
                    gone: gone.saturating_sub(1).min(65535) as u16,
                    left: self.between(1, c.max(1)) as u16,
                }
            }
            3 => {
                state.kinds[i].released = true;
                state.kinds[i].left = self.one_of(&[c + 1, 65535]).min(65535) as u16;
            }
            4 => state.kinds[i].released = !state.kinds[i].released,
            _ => {
                let beyond = &mut state.kinds[self.between(used, MOST_KINDS).min(15) as usize];
                match self.below(3) {
                    0 => beyond.released = !beyond.released,
                    1 => beyond.gone = self.between(0, 2) as u16,
                    _ => beyond.left = self.between(0, 2) as u16,
                }
            }
        }
    }

    /// A state record: fresh, reached, in form, just out of form, with sums that differ, or of any fields; on any plan record.
    pub fn state_record(&mut self) -> State {
        let plan = match self.below(4) {
            0 => self.plan_record(),
            1 => self.good_plan(),
            _ => self.admitted_plan(),
        };
        match self.below(8) {
            0 => State {
                plan,
                ..State::default()
            },
            1 | 2 => self.state_reached(&plan),
            3 | 4 => self.state_in_form(&plan),
            5 | 6 => {
                let mut state = if self.one_in(2) {
                    self.state_reached(&plan)
                } else {
                    self.state_in_form(&plan)
                };
                if self.one_in(4) {
                    self.spoil_sums(&mut state);
                    return state;
                }
                for _ in 0..self.between(1, 2) {
                    self.spoil_state(&mut state);
                }
                state
            }
            _ => {
                let mut state = State {
                    plan,
                    slice: self.number() as u8,
                    ..State::default()
                };
                for place in &mut state.kinds {
                    *place = KindState {
                        released: self.one_in(2),
                        gone: self.number() as u16,
                        left: self.number() as u16,
                    };
                }
                for sum in &mut state.sums {
                    *sum = self.number() as u16;
                }
                match self.below(3) {
                    0 => state,
                    _ => state.summed(),
                }
            }
        }
    }

    /// A kind and a length e for a release of this state: due, at each edge, or far beyond any byte.
    pub fn release_numbers(&mut self, state: &State) -> (u64, u64) {
        let n = u64::from(state.plan.n);
        let kind = match self.below(12) {
            0 => n,
            1 => self.below(16),
            2 => self.one_of(&[16, 17, 255, 256, 1 << 16, 1 << 32, u64::MAX, self.seed]),
            // Would be a kind below n if only its low bits were looked at.
            3 => self.below(n) + self.one_of(&[1 << 4, 1 << 8, 1 << 16, 1 << 32]),
            _ => self.below(n),
        };
        let c = match state.plan.kinds.get(kind as usize) {
            Some(kind) if kind.length > 0 => u64::from(kind.length),
            _ => 1,
        };
        let e = match self.below(12) {
            0 => 0,
            1 => c + 1,
            2 => self.one_of(&[4095, 4096, 65535, 65536, 1 << 32, u64::MAX, self.seed]),
            // Would be in 1..C if only its low bits were looked at.
            3 => self.between(1, c) + self.one_of(&[1 << 12, 1 << 16, 1 << 32]),
            4 | 5 => c,
            _ => self.between(1, c),
        };
        (kind, e)
    }

    /// The number of a project of this plan: mostly below p, else the first that is not, or far beyond any byte.
    pub fn project_number(&mut self, plan: &Plan) -> u64 {
        let p = u64::from(plan.p);
        match self.below(16) {
            0 => p,
            1 => self.one_of(&[8, 9, 255, 256, 1 << 16, 1 << 32, u64::MAX, self.seed]),
            // Would be below p if only its low bits were looked at.
            2 => self.below(p) + self.one_of(&[1 << 3, 1 << 8, 1 << 16, 1 << 32]),
            _ => self.below(p),
        }
    }

    /// The number of a kind of this plan, in the same way.
    pub fn kind_number(&mut self, plan: &Plan) -> u64 {
        let n = u64::from(plan.n);
        match self.below(16) {
            0 => n,
            1 => self.one_of(&[16, 17, 255, 256, 1 << 16, 1 << 32, u64::MAX, self.seed]),
            2 => self.below(n) + self.one_of(&[1 << 4, 1 << 8, 1 << 16, 1 << 32]),
            _ => self.below(n),
        }
    }

    /// A lent buffer of arbitrary bytes, from none to a few more than needed.
    pub fn buffer(&mut self, needed: usize) -> Vec<u8> {
        let needed = needed as u64;
        let count = match self.below(8) {
            0 => 0,
            1 => needed.saturating_sub(1),
            2 | 3 => needed,
            4 => self.between(needed, needed + 4),
            _ => self.between(0, needed + 4),
        };
        self.arbitrary_bytes(count)
    }

    /// A buffer for the writer of plan bytes: "A plan takes 3 + 2p + 5n bytes".
    pub fn write_buffer(&mut self, plan: &Plan) -> Vec<u8> {
        self.buffer(plan_bytes(plan.p, plan.n))
    }

    /// A buffer for the slot table: "card by card, F bytes each".
    pub fn table_buffer(&mut self, plan: &Plan) -> Vec<u8> {
        self.buffer(usize::from(plan.m) * usize::from(plan.frame))
    }

    /// A buffer for a slice: "The row written has m bytes".
    pub fn row_buffer(&mut self, state: &State) -> Vec<u8> {
        self.buffer(usize::from(state.plan.m))
    }
}
