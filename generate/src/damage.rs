//! Damaged plan bytes, for the rescue: "Lent machines return plan files with flipped bits."

use crate::fixed::wide_plan;
use crate::streams::flip;
use crate::{limit_plans, spare_bits, Generator};
use second::bytes::pack;
use second::plan::{Kind, Plan, Project};

/// So many plans have each single bit of their bytes flipped.
const FLIPPED: u64 = 120;

/// Each change that a rescue can make at each place and boundary, alone and together; then every single flip of some hundred plans.
pub fn fixed_damage() -> Vec<Vec<u8>> {
    let mut damaged = Vec::new();

    // Kinds dropped in every pattern of six, and all but one, and all, of sixteen; each with spare bits and a D to lower.
    for pattern in 0..64u32 {
        damaged.push(dropped(6, pattern));
    }
    for place in 0..16 {
        damaged.push(dropped(16, 0xFFFF & !(1 << place)));
        damaged.push(dropped(16, 1 << place));
    }
    damaged.extend([dropped(16, 0xFFFF), dropped(16, 0), dropped(1, 1)]);

    // As much as can be wrong, and every bit set or none behind a header.
    for n in [1, 15, 16] {
        let mut longest = pack(&Plan::of(1, 1, &[(15, 1023); 8], &vec![(7, 5, 4095, 5); n]));
        for bit in spare_bits(&Plan::of(1, 1, &[(1, 1); 8], &vec![(0, 1, 1, 1); n])) {
            flip(&mut longest, bit as usize);
        }
        damaged.push(longest);
    }
    for plan in limit_plans() {
        for fill in [0, 0xFF, 0x55, 0xAA] {
            let mut bytes = pack(&plan);
            bytes[3..].fill(fill);
            damaged.push(bytes);
        }
    }

    // 1, 2 and 1: every cut, with a spare bit set, and each value of a header's byte.
    let mut wrong = pack(&wide_plan(7));
    flip(&mut wrong, 20);
    for count in 0..=wrong.len() {
        damaged.push(wrong[..count].to_vec());
    }
    for value in 0..=255 {
        for at in 0..3 {
            let mut bytes = wrong.clone();
            bytes[at] = value;
            damaged.push(bytes[..3].to_vec());
            bytes.resize(99, 0x5A);
            damaged.push(bytes);
        }
    }

    // Each q beside each B at its boundaries, in each project.
    for m in [1u8, 2, 7, 8] {
        for frame in [1u8, 5, 64] {
            for ceiling in 0..16u8 {
                let rescued = u16::from(ceiling.clamp(1, m));
                let (old, new) = (u16::from(ceiling), rescued);
                let most = [old, new].map(|q| q * u16::from(frame));
                let near = most.map(|most| [most.saturating_sub(1), most, most + 1]);
                for budget in near.concat().into_iter().chain([0, 1, 1023]) {
                    let place = usize::from(ceiling) % 3;
                    let mut plan = Plan::of(m, frame, &[(1, 1); 3], &[(2, 9, 9, 9)]);
                    plan.projects[place] = Project {
                        ceiling,
                        budget: budget.min(1023),
                    };
                    damaged.push(pack(&plan));
                }
            }
        }
    }

    // Each project, T, D and C at their boundaries, at each kind of three; with spare bits and without.
    for place in 0..3 {
        for project in [0u8, 1, 2, 7] {
            for separation in [0, 1, 5, 4095] {
                for deadline in [0, 1, 4, 5, 6, 4094, 4095] {
                    for length in [0, 1, 4, 5, 6, 7, 4095] {
                        let mut plan = Plan::of(2, 4, &[(1, 3), (2, 5)], &[(1, 8, 7, 2); 3]);
                        plan.kinds[place] = Kind {
                            project,
                            separation,
                            deadline,
                            length,
                        };
                        let mut bytes = pack(&plan);
                        if (separation + deadline + length) % 2 == 1 {
                            bytes[7 + 5 * place + 4] |= 1;
                            bytes[7 + 4] |= 1;
                        }
                        damaged.push(bytes);
                    }
                }
            }
        }
    }

    // Every single flip.
    let mut g = Generator::new(8);
    let mut plans = vec![Plan::a(), Plan::b(), wide_plan(8), wide_plan(1)];
    while (plans.len() as u64) < FLIPPED {
        plans.push(g.good_plan());
    }
    for plan in &plans {
        let bytes = pack(plan);
        for bit in 0..8 * bytes.len() {
            let mut flipped = bytes.clone();
            flip(&mut flipped, bit);
            damaged.push(flipped);
        }
        damaged.push(bytes);
    }
    damaged
}

/// A plan of n kinds with each kind of the pattern to be dropped, in turn for its project, its C of 0 and its C above D; every spare
/// bit is set and every D is above T.
fn dropped(n: usize, pattern: u32) -> Vec<u8> {
    let kind = |place: usize| {
        let lost = pattern >> place & 1 == 1;
        match place % 3 {
            0 if lost => (3, 8, 9, 2),
            1 if lost => (1, 8, 9, 0),
            _ if lost => (1, 8, 9, 9),
            _ => (place as u8 % 3, 20 + place as u16, 30, 2),
        }
    };
    let kinds: Vec<_> = (0..n).map(kind).collect();
    let plan = Plan::of(3, 4, &[(1, 2), (0, 9), (5, 0)], &kinds);
    let mut bytes = pack(&plan);
    for bit in spare_bits(&plan) {
        flip(&mut bytes, bit as usize);
    }
    bytes
}

impl Generator {
    /// The bytes of this plan as a lent machine may return them: one flip, 2 to 20, some fields at an edge, spare bits, arbitrary behind
    /// the header, or arbitrary throughout; cut, or with more behind.
    pub fn damaged(&mut self, plan: &Plan) -> Vec<u8> {
        let mut plan = *plan;
        let manner = self.below(16);
        if manner >= 10 {
            for _ in 0..self.between(1, 6) {
                self.spoil_fields(&mut plan);
            }
        }
        let mut bytes = pack(&plan);
        let bits = 8 * bytes.len() as u64;
        match manner {
            0 | 1 => flip(&mut bytes, self.below(bits) as usize),
            2..=6 => {
                for _ in 0..self.between(2, 20) {
                    flip(&mut bytes, self.below(bits) as usize);
                }
            }
            7 => {
                // Behind the header alone, so that 1 and 2 are passed.
                for _ in 0..self.between(2, 20) {
                    flip(&mut bytes, self.between(24, bits - 1) as usize);
                }
            }
            8 => {
                let count = self.below(120);
                let header = [bytes[0], bytes[1], bytes[2]];
                bytes = self.arbitrary_bytes(count);
                for (place, byte) in bytes.iter_mut().zip(header) {
                    *place = byte;
                }
            }
            9 => {
                let count = self.below(120);
                bytes = self.arbitrary_bytes(count);
            }
            _ => {
                let spare = spare_bits(&plan);
                for _ in 0..self.below(4) {
                    flip(&mut bytes, self.one_of(&spare) as usize);
                }
            }
        }
        match self.below(12) {
            0 => bytes.truncate(self.below(bytes.len() as u64 + 1) as usize),
            1 => {
                bytes.pop();
            }
            2..=5 => {
                let more = self.below(8);
                bytes.extend(self.arbitrary_bytes(more));
            }
            _ => {}
        }
        bytes
    }

    /// One field of a project or a kind at an edge that the rescue looks at, or beyond it.
    fn spoil_fields(&mut self, plan: &mut Plan) {
        let i = self.below(u64::from(plan.p).clamp(1, 8)) as usize;
        let j = self.below(u64::from(plan.n).clamp(1, 16)) as usize;
        let (m, p, frame) = (u64::from(plan.m), u64::from(plan.p), u64::from(plan.frame));
        let project = &mut plan.projects[i];
        let kind = &mut plan.kinds[j];
        let (t, d) = (u64::from(kind.separation), u64::from(kind.deadline));
        match self.below(7) {
            0 => project.ceiling = self.one_of(&[0, 1, m, m + 1, 15]).min(15) as u8,
            1 | 2 => {
                let most = u64::from(project.ceiling) * frame;
                let values = [0, 1, most, most + 1, m * frame + 1, 1023];
                project.budget = self.one_of(&values).min(1023) as u16;
            }
            3 => kind.project = self.one_of(&[0, p - 1, p, 7]).min(7) as u8,
            4 => kind.separation = self.one_of(&[0, 1, d, d.max(1) - 1, 4095]) as u16,
            5 => kind.deadline = self.one_of(&[0, 1, t, t + 1, 4095]).min(4095) as u16,
            _ => kind.length = self.one_of(&[0, 1, d, d + 1, t, t + 1, 4095]).min(4095) as u16,
        }
    }
}
