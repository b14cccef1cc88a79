//! Plans: good, admitted, just refused, and spoiled.

use crate::Generator;
use second::layout::h;
use second::plan::{
    check, Kind, Plan, Project, MOST_CARDS, MOST_FRAME, MOST_KINDS, MOST_PROJECTS, MOST_SEPARATION,
};
use second::verdict::{ceiling_of, verdict, workload};

impl Generator {
    /// A plan that passes the record order "2, 3, 4, 5/6, 7", admitted or not (mostly not).
    pub fn good_plan(&mut self) -> Plan {
        self.plan_of_load(1)
    }

    /// A plan of the record order whose lengths are at most about D / `share`.
    fn plan_of_load(&mut self, share: u64) -> Plan {
        let m = self.towards_ends(1, MOST_CARDS);
        let frame = match self.below(3) {
            0 => self.towards_ends(1, MOST_FRAME),
            _ => self.towards_ends(1, 10),
        };
        let p = self.towards_ends(1, MOST_PROJECTS.min(m * frame));
        let n = self.towards_ends(1, MOST_KINDS);
        let mut plan = Plan {
            m: m as u8,
            p: p as u8,
            n: n as u8,
            frame: frame as u8,
            ..Plan::default()
        };

        // Budgets: each project takes some of the free cells and leaves one for each later project.
        let mut free = m * frame;
        let fair = self.one_in(2);
        for i in 0..p {
            let later = p - 1 - i;
            let q = self.towards_ends(1, m);
            let mut most = (q * frame).min(free - later);
            if fair {
                most = most.min((2 * free / (later + 1)).max(1));
            }
            let b = match self.below(4) {
                // Whole frames, so that h is the same at each slice.
                0 if most >= frame => frame * self.between(1, most / frame),
                1 => most,
                _ => self.towards_ends(1, most),
            };
            plan.projects[i as usize] = Project {
                ceiling: q as u8,
                budget: b as u16,
            };
            free -= b;
        }
        for i in (1..p).rev() {
            plan.projects.swap(i as usize, self.below(i + 1) as usize);
        }

        // Kinds: all within one horizon, so that they meet.
        let horizon = match self.below(40) {
            0 => MOST_SEPARATION,
            1 => 1000,
            2 | 3 => 300,
            _ => self.one_of(&[4, 8, 8, 16, 16, 32, 32, 64, 128]),
        };
        for i in 0..n {
            let t = self.towards_ends(1, horizon);
            let d = if self.one_in(2) {
                t
            } else {
                self.towards_ends(1, t)
            };
            let c = self.between(1, (d / share).max(1));
            plan.kinds[i as usize] = Kind {
                project: self.below(p) as u8,
                separation: t as u16,
                deadline: d as u16,
                length: c as u16,
            };
        }
        plan
    }

    /// A plan that the verdict admits; two in three are tightened, so that a little more would be refused.
    pub fn admitted_plan(&mut self) -> Plan {
        for _ in 0..50 {
            let share = self.one_of(&[1, 2, 4, 8, 16]);
            let mut plan = self.plan_of_load(share);
            if self.lighten(&mut plan) {
                if !self.one_in(3) {
                    self.tighten(&mut plan);
                }
                return plan;
            }
        }
        Plan::of(1, 1, &[(1, 1)], &[(0, 1, 1, 1)])
    }

    /// A plan that the verdict admits, with separations to the end of their range, long ones beside short ones.
    pub fn long_plan(&mut self) -> Plan {
        for _ in 0..50 {
            let mut plan = self.plan_of_load(8);
            plan.frame = plan.frame.min(16);
            for place in &mut plan.projects {
                place.budget = place
                    .budget
                    .min(u16::from(place.ceiling) * u16::from(plan.frame));
            }
            let n = usize::from(plan.n);
            for kind in &mut plan.kinds[..n] {
                if self.one_in(2) {
                    kind.separation = self.towards_ends(1000, MOST_SEPARATION) as u16;
                    if self.one_in(2) {
                        kind.deadline = self.towards_ends(u64::from(kind.length), 600) as u16;
                    }
                }
            }
            if check(&plan).is_good() && self.lighten(&mut plan) {
                return plan;
            }
        }
        Plan::of(1, 1, &[(1, 1)], &[(0, 4095, 1, 1)])
    }

    /// Eases the kind that the verdict names, or another of its project, until the plan is admitted.
    fn lighten(&mut self, plan: &mut Plan) -> bool {
        for _ in 0..100 {
            // The verdict is asked only when nothing cheaper refuses.
            let (i, excess) = match surely_refused(plan) {
                Some(found) => found,
                None => {
                    let (answer, ..) = verdict(plan);
                    if answer.is_good() {
                        return true;
                    }
                    (answer.place as usize, answer.excess)
                }
            };
            let n = usize::from(plan.n);
            let project = plan.kinds[i].project;
            let near: Vec<usize> = (0..n)
                .filter(|&j| plan.kinds[j].project == project)
                .collect();
            let j = near[self.below(near.len() as u64) as usize];
            match self.below(8) {
                0..=2 => {
                    let kind = &mut plan.kinds[i];
                    kind.length -= (kind.length - 1).min(excess as u16);
                }
                3 | 4 => plan.kinds[j].length -= plan.kinds[j].length / 2,
                5 => {
                    let kind = &mut plan.kinds[i];
                    kind.separation = (kind.separation * 2).min(MOST_SEPARATION as u16);
                    kind.deadline = (kind.deadline * 2).min(kind.separation);
                }
                6 => {
                    let kind = &mut plan.kinds[j];
                    kind.separation = (kind.separation * 2).min(MOST_SEPARATION as u16);
                }
                _ => plan.kinds[i].project = self.below(u64::from(plan.p)) as u8,
            }
        }
        false
    }

    /// Lengthens units and shortens deadlines and separations as far as the verdict still admits.
    fn tighten(&mut self, plan: &mut Plan) {
        let n = u64::from(plan.n);
        let longest = plan
            .used_kinds()
            .iter()
            .map(|kind| kind.deadline)
            .max()
            .unwrap_or(0);
        let tries = if longest > 300 { 4 } else { 3 * n };
        for _ in 0..tries {
            let i = self.below(n) as usize;
            let mut tried = *plan;
            self.press(&mut tried.kinds[i]);
            if surely_refused(&tried).is_none() && verdict(&tried).0.is_good() {
                *plan = tried;
            }
        }
    }

    /// One step to a heavier kind that keeps "1 <= C <= D <= T".
    fn press(&mut self, kind: &mut Kind) {
        let step = |generator: &mut Generator, room: u16| {
            if generator.one_in(2) {
                room.min(1)
            } else {
                generator.between(0, u64::from(room)) as u16
            }
        };
        match self.below(4) {
            0 => kind.deadline -= step(self, kind.deadline - kind.length),
            1 => kind.separation -= step(self, kind.separation - kind.deadline),
            _ => kind.length += step(self, kind.deadline - kind.length),
        }
    }

    /// An admitted plan, pressed until the verdict refuses it (8, mostly with a small excess).
    pub fn just_refused_plan(&mut self) -> Plan {
        for _ in 0..20 {
            let mut plan = self.admitted_plan();
            for _ in 0..60 {
                let i = self.below(u64::from(plan.n)) as usize;
                self.press(&mut plan.kinds[i]);
                if !verdict(&plan).0.is_good() {
                    return plan;
                }
            }
        }
        Plan::of(1, 2, &[(1, 1)], &[(0, 1, 1, 1)])
    }

    /// A plan with one field, of those that plan bytes can express, most likely out of range.
    pub(crate) fn spoil_in_bits(&mut self, plan: &mut Plan) {
        let i = self.below(u64::from(plan.p).clamp(1, MOST_PROJECTS)) as usize;
        let j = self.below(u64::from(plan.n).clamp(1, MOST_KINDS)) as usize;
        match self.below(16) {
            0 => plan.m = self.below(16) as u8,
            1 => plan.p = self.below(16) as u8,
            2 => plan.n = self.below(32) as u8,
            3 => plan.frame = self.below(128) as u8,
            4 => {
                plan.projects[i].ceiling =
                    self.one_of(&[0, u64::from(plan.m) + 1, 15]).min(15) as u8
            }
            5 | 6 => {
                let over = u64::from(plan.projects[i].ceiling) * u64::from(plan.frame) + 1;
                plan.projects[i].budget = self.one_of(&[0, over, over - 1, 1023]).min(1023) as u16;
            }
            7 => plan.kinds[j].project = self.one_of(&[u64::from(plan.p), 7]).min(7) as u8,
            8 => {
                plan.kinds[j].length = self
                    .one_of(&[0, u64::from(plan.kinds[j].deadline) + 1])
                    .min(4095) as u16
            }
            9 => {
                plan.kinds[j].deadline = self
                    .one_of(&[0, u64::from(plan.kinds[j].separation) + 1])
                    .min(4095) as u16
            }
            10 => plan.kinds[j].separation = self.below(4096) as u16,
            11 => plan.kinds[j].deadline = self.below(4096) as u16,
            12 => plan.kinds[j].length = self.below(4096) as u16,
            _ => self.overfill(plan),
        }
    }

    /// Budgets that sum to one cell more than there are, if there is more than one project.
    fn overfill(&mut self, plan: &mut Plan) {
        let i = self.below(u64::from(plan.p).clamp(1, MOST_PROJECTS)) as usize;
        let sum: u64 = plan
            .used_projects()
            .iter()
            .map(|project| u64::from(project.budget))
            .sum();
        let short = (u64::from(plan.m) * u64::from(plan.frame) + 1).saturating_sub(sum);
        let budget = u64::from(plan.projects[i].budget) + short;
        plan.projects[i] = Project {
            ceiling: plan.m,
            budget: budget.min(1023) as u16,
        };
    }

    /// A number in range, at an edge, or as wide as its field (`widest`).
    fn any_field(&mut self, most: u64, widest: u64) -> u64 {
        match self.below(8) {
            0 => 0,
            1 => most,
            2 => most + 1,
            3 => widest,
            4 => self.between(0, widest),
            _ => self.between(1, most),
        }
    }

    /// A plan with one field, of the whole record, most likely out of range.
    pub(crate) fn spoil_record(&mut self, plan: &mut Plan) {
        let place = |generator: &mut Generator, used: u8, all: u64| -> usize {
            let used = u64::from(used);
            // Half the time an unused place, if there is one.
            if used < all && generator.one_in(2) {
                generator.between(used, all - 1) as usize
            } else {
                generator.below(all.min(used.max(1))) as usize
            }
        };
        match self.below(15) {
            0 => plan.m = self.any_field(MOST_CARDS, 255) as u8,
            1 => plan.p = self.any_field(MOST_PROJECTS, 255) as u8,
            2 => plan.n = self.any_field(MOST_KINDS, 255) as u8,
            3 => plan.frame = self.any_field(MOST_FRAME, 255) as u8,
            4 => {
                let i = place(self, plan.p, MOST_PROJECTS);
                plan.projects[i].ceiling = self.any_field(u64::from(plan.m), 255).min(255) as u8;
            }
            5 => {
                let i = place(self, plan.p, MOST_PROJECTS);
                let most = u64::from(plan.projects[i].ceiling) * u64::from(plan.frame);
                plan.projects[i].budget = self.any_field(most, 65535).min(65535) as u16;
            }
            6 => {
                let j = place(self, plan.n, MOST_KINDS);
                plan.kinds[j].project = self.any_field(u64::from(plan.p), 255).min(255) as u8;
            }
            7 => {
                let j = place(self, plan.n, MOST_KINDS);
                plan.kinds[j].separation = self.any_field(MOST_SEPARATION, 65535) as u16;
            }
            8 => {
                let j = place(self, plan.n, MOST_KINDS);
                let most = u64::from(plan.kinds[j].separation);
                plan.kinds[j].deadline = self.any_field(most, 65535).min(65535) as u16;
            }
            9 => {
                let j = place(self, plan.n, MOST_KINDS);
                let most = u64::from(plan.kinds[j].deadline);
                plan.kinds[j].length = self.any_field(most, 65535).min(65535) as u16;
            }
            10 => {
                // T, D and C in order but beyond 4095: only a record can hold it.
                let j = self.below(u64::from(plan.n).clamp(1, MOST_KINDS)) as usize;
                plan.kinds[j].separation = self.between(4096, 65535) as u16;
            }
            11 => {
                let j = self.below(u64::from(plan.n).clamp(1, MOST_KINDS)) as usize;
                plan.kinds[j].project = self.one_of(&[u64::from(plan.p), 8, 255]) as u8;
            }
            12 => self.overfill(plan),
            _ => self.spoil_in_bits(plan),
        }
    }

    /// Fields of any value whatever; in some the header is in range, in some the unused places are zero.
    pub(crate) fn arbitrary_plan(&mut self) -> Plan {
        let header_in_range = !self.one_in(4);
        let unused_zero = self.one_in(2);
        let mut plan = if header_in_range {
            Plan {
                m: self.between(1, MOST_CARDS) as u8,
                p: self.between(1, MOST_PROJECTS) as u8,
                n: self.between(1, MOST_KINDS) as u8,
                frame: self.between(1, MOST_FRAME) as u8,
                ..Plan::default()
            }
        } else {
            Plan {
                m: self.number() as u8,
                p: self.number() as u8,
                n: self.number() as u8,
                frame: self.number() as u8,
                ..Plan::default()
            }
        };
        for (i, place) in plan.projects.iter_mut().enumerate() {
            if !(unused_zero && i >= usize::from(plan.p)) {
                *place = Project {
                    ceiling: self.number() as u8,
                    budget: self.number() as u16,
                };
            }
        }
        for (j, place) in plan.kinds.iter_mut().enumerate() {
            if !(unused_zero && j >= usize::from(plan.n)) {
                *place = Kind {
                    project: self.number() as u8,
                    separation: self.number() as u16,
                    deadline: self.number() as u16,
                    length: self.number() as u16,
                };
            }
        }
        plan
    }
}

/// A kind that asks for more than t slices hold on the average, and by how much: the least over the
/// starts is not above the average, so this kind fits at no k. Quick, and only used to find plans.
fn surely_refused(plan: &Plan) -> Option<(usize, u64)> {
    let frame = u64::from(plan.frame);
    let held: Vec<Vec<u64>> = (0..plan.used_projects().len())
        .map(|project| h(plan, project))
        .collect();
    for (i, kind) in plan.used_kinds().iter().enumerate() {
        let d = u64::from(kind.deadline);
        let w = workload(plan, i);
        let mut least = None;
        for k in 1..=ceiling_of(plan, i) {
            let in_frame: u64 = held[usize::from(kind.project)]
                .iter()
                .map(|&h| h.min(k))
                .sum();
            let asked = (k * u64::from(kind.length) + w) * frame;
            let over = asked.saturating_sub(d * in_frame).div_ceil(frame);
            if least.is_none_or(|before| over < before) {
                least = Some(over);
            }
        }
        match least {
            Some(over) if over > 0 => return Some((i, over)),
            _ => {}
        }
    }
    None
}
