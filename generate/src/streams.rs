//! Commands and random streams for the player.

use crate::{limit_plans, release_bytes, Generator, Stream, SLICE};
use second::bytes::{pack, plan_bytes};
use second::plan::{check, Plan, MOST_CARDS};
use second::rack::{fresh, in_form, release, slice, State};

/// The kinds that a release would be accepted for now: never released, or T slices ago.
fn due(state: &State) -> Vec<u64> {
    let mut due = Vec::new();
    for (i, kind) in state.plan.used_kinds().iter().enumerate() {
        let place = state.kinds[i];
        if !place.released || place.gone >= kind.separation {
            due.push(i as u64);
        }
    }
    due
}

impl Generator {
    /// About `count` commands played from this state: what to send, and the state they lead to (none when out of form).
    pub fn run(&mut self, state: State, count: u64) -> (Vec<u8>, State) {
        let mut bytes = Vec::new();
        let mut state = state;
        if !check(&state.plan).is_good() || !in_form(&state) {
            return (bytes, state);
        }
        let n = u64::from(state.plan.n);
        // 0: dense, each kind as soon as it is due; 1: dense with shorter units and lags; else mixed.
        let manner = self.below(4);
        // Start at any slice of the frame.
        for _ in 0..self.below(u64::from(state.plan.frame)) {
            step_slice(&mut state, &mut bytes);
        }
        while (bytes.len() as u64) < 3 * count {
            if manner < 2 {
                for kind in due(&state) {
                    let c = u64::from(state.plan.kinds[kind as usize].length);
                    if manner == 0 {
                        step_release(&mut state, kind, c, &mut bytes);
                    } else if self.one_in(2) {
                        let e = self.between(1, c);
                        step_release(&mut state, kind, e, &mut bytes);
                    }
                }
                step_slice(&mut state, &mut bytes);
                continue;
            }
            let kind = self.below(n);
            let c = u64::from(state.plan.kinds[kind as usize].length);
            match self.below(16) {
                0..=6 => step_slice(&mut state, &mut bytes),
                7..=10 => {
                    let due = due(&state);
                    if !due.is_empty() {
                        let kind = self.one_of(&due);
                        let c = u64::from(state.plan.kinds[kind as usize].length);
                        let e = if self.one_in(2) {
                            c
                        } else {
                            self.between(1, c)
                        };
                        step_release(&mut state, kind, e, &mut bytes);
                    }
                }
                // Perhaps too early.
                11 => {
                    let e = self.between(1, c);
                    step_release(&mut state, kind, e, &mut bytes);
                }
                // Perhaps too long, or 0.
                12 => {
                    let e = self.one_of(&[0, c + 1, 4095]);
                    step_release(&mut state, kind, e, &mut bytes);
                }
                // Any kind and any e that four and twelve bits can hold.
                13 => {
                    let (kind, e) = (self.below(16), self.below(4096));
                    step_release(&mut state, kind, e, &mut bytes);
                }
                // Up to one slice before T, then refused by 14, then exactly T.
                14 => {
                    let place = state.kinds[kind as usize];
                    let t = u64::from(state.plan.kinds[kind as usize].separation);
                    let gone = u64::from(place.gone);
                    if place.released && gone < t && t - gone <= 40 {
                        for _ in 0..t - gone - 1 {
                            step_slice(&mut state, &mut bytes);
                        }
                        step_release(&mut state, kind, c, &mut bytes);
                        step_slice(&mut state, &mut bytes);
                        step_release(&mut state, kind, c, &mut bytes);
                    }
                }
                _ => {
                    for _ in 0..self.below(u64::from(state.plan.frame) + 1) {
                        step_slice(&mut state, &mut bytes);
                    }
                }
            }
        }
        (bytes, state)
    }

    /// So many slices played from this state, of a rack that waits for its units: each kind is released when it may be or some time
    /// after, and asked for one slice too early or at any other time as well.
    pub fn patient_run(&mut self, state: State, slices: u64) -> Vec<u8> {
        let mut bytes = Vec::new();
        let mut state = state;
        for _ in 0..slices {
            for kind in 0..u64::from(state.plan.n) {
                let place = state.kinds[kind as usize];
                let of_plan = state.plan.kinds[kind as usize];
                let waits = match of_plan.separation.saturating_sub(place.gone) {
                    // Long after T what is gone is still T.
                    0 => self.one_in(1 + u64::from(of_plan.separation) / 4),
                    1 => self.one_in(2),
                    _ => self.one_in(400),
                };
                if waits || !place.released && self.one_in(30) {
                    let e = self.towards_ends(1, u64::from(of_plan.length));
                    step_release(&mut state, kind, e, &mut bytes);
                }
            }
            step_slice(&mut state, &mut bytes);
        }
        bytes
    }

    /// What may follow good commands: nothing, one or two bytes, a bad command and more, arbitrary bytes.
    fn tail(&mut self) -> Vec<u8> {
        match self.below(12) {
            0 => self.arbitrary_bytes(1),
            1 => self.arbitrary_bytes(2),
            2 => {
                // A slice with one bit set that is not the first.
                let bit = self.below(23);
                let mut bytes = vec![
                    (1u32 << bit >> 16) as u8,
                    (1u32 << bit >> 8) as u8,
                    (1u32 << bit) as u8,
                ];
                let more = self.below(9);
                bytes.extend(self.arbitrary_bytes(more));
                bytes
            }
            3 => {
                // A release with one of its seven zero bits set.
                let (kind, e) = (self.below(16), self.below(4096));
                let mut bytes = release_bytes(kind, e).to_vec();
                bytes[2] |= 1 << self.below(7);
                bytes.extend(SLICE);
                bytes
            }
            4 => {
                let count = self.below(40);
                self.arbitrary_bytes(count)
            }
            _ => Vec::new(),
        }
    }

    fn stream_on(&mut self, name: &str, plan: &Plan) -> Stream {
        let mut bytes = pack(plan);
        let (answer, state) = fresh(plan);
        if answer.is_good() {
            let count = match self.below(16) {
                0 => 0,
                1 => self.between(300, 1500),
                _ => self.between(1, 250),
            };
            bytes.extend(self.run(state, count).0);
        } else {
            for _ in 0..self.below(4) {
                bytes.extend(SLICE);
            }
        }
        bytes.extend(self.tail());
        Stream {
            name: name.to_string(),
            bytes,
        }
    }

    /// A stream over thousands of slices on a plan with long separations.
    fn patient_stream(&mut self) -> Stream {
        let plan = self.long_plan();
        let slices = self.between(1_000, 6_000);
        let mut bytes = pack(&plan);
        bytes.extend(self.patient_run(fresh(&plan).1, slices));
        bytes.extend(self.tail());
        Stream {
            name: "far apart".to_string(),
            bytes,
        }
    }

    /// One input for the player: most on admitted plans with long mixed commands, the rest refused in every way.
    pub fn stream(&mut self) -> Stream {
        if self.one_in(120) {
            return self.patient_stream();
        }
        match self.below(20) {
            0..=9 => {
                let plan = self.admitted_plan();
                self.stream_on("admitted", &plan)
            }
            10 => {
                let plans = limit_plans();
                let plan = plans[self.below(plans.len() as u64) as usize];
                self.stream_on("at the limits", &plan)
            }
            11 => {
                let plan = self.just_refused_plan();
                self.stream_on("just refused", &plan)
            }
            12 => {
                let plan = self.good_plan();
                self.stream_on("good fields", &plan)
            }
            13..=15 => {
                let mut plan = if self.one_in(2) {
                    self.admitted_plan()
                } else {
                    self.good_plan()
                };
                for _ in 0..self.between(1, 3) {
                    self.spoil_in_bits(&mut plan);
                }
                self.stream_on("spoiled fields", &plan)
            }
            16 => {
                let mut plan = self.admitted_plan();
                if self.one_in(3) {
                    self.spoil_in_bits(&mut plan);
                }
                let mut stream = self.stream_on("spare bit", &plan);
                let spare = spare_bits(&plan);
                for _ in 0..self.between(1, 2) {
                    flip(&mut stream.bytes, self.one_of(&spare) as usize);
                }
                stream
            }
            17 => {
                let mut plan = self.admitted_plan();
                if self.one_in(3) {
                    self.spoil_in_bits(&mut plan);
                }
                let mut stream = self.stream_on("cut off", &plan);
                let most = if self.one_in(3) {
                    stream.bytes.len()
                } else {
                    plan_bytes(plan.p, plan.n)
                };
                let kept = self.below(most as u64) as usize;
                stream.bytes.truncate(kept);
                stream
            }
            18 => {
                let plan = self.admitted_plan();
                let mut stream = self.stream_on("flipped bits", &plan);
                for _ in 0..self.between(1, 4) {
                    let bit = self.below(8 * stream.bytes.len() as u64) as usize;
                    flip(&mut stream.bytes, bit);
                }
                stream
            }
            _ => {
                let count = self.below(140);
                let mut bytes = self.arbitrary_bytes(count);
                if self.one_in(2) {
                    // A header in range before arbitrary bytes.
                    let header = pack(&self.good_plan());
                    for (place, byte) in bytes.iter_mut().zip(&header[..3]) {
                        *place = *byte;
                    }
                }
                Stream {
                    name: "arbitrary bytes".to_string(),
                    bytes,
                }
            }
        }
    }
}

/// A plan and so many slices, each kind released at its length as soon as it is due.
pub fn long_stream(plan: &Plan, slices: u64) -> Vec<u8> {
    let mut bytes = pack(plan);
    let (_, mut state) = fresh(plan);
    for _ in 0..slices {
        for kind in due(&state) {
            let c = u64::from(state.plan.kinds[kind as usize].length);
            step_release(&mut state, kind, c, &mut bytes);
        }
        step_slice(&mut state, &mut bytes);
    }
    bytes
}

fn step_slice(state: &mut State, bytes: &mut Vec<u8>) {
    let mut row = [0; MOST_CARDS as usize];
    *state = slice(state, &mut row).1;
    bytes.extend(SLICE);
}

fn step_release(state: &mut State, kind: u64, e: u64, bytes: &mut Vec<u8>) {
    *state = release(state, kind & 0b1111, e & 0b1111_1111_1111).1;
    bytes.extend(release_bytes(kind, e));
}

pub(crate) fn flip(bytes: &mut [u8], bit: usize) {
    if let Some(byte) = bytes.get_mut(bit / 8) {
        *byte ^= 1 << (7 - bit % 8);
    }
}

/// The places of "the spare bits" in the bytes of a plan: 4 of the header, 2 of each project, 1 of each kind.
pub fn spare_bits(plan: &Plan) -> Vec<u64> {
    let mut bits = vec![20, 21, 22, 23];
    let (p, n) = (
        plan.used_projects().len() as u64,
        plan.used_kinds().len() as u64,
    );
    for i in 0..p {
        bits.extend([24 + 16 * i + 14, 24 + 16 * i + 15]);
    }
    for j in 0..n {
        bits.push(24 + 16 * p + 40 * j + 39);
    }
    bits
}
