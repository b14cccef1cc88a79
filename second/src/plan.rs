//! The plan as a record, and the numbers of the record order: "Records: 2, 3, 4, 5/6, 7."

use crate::answer::Answer;

/// "cards m 1..8".
pub const MOST_CARDS: u64 = 8;
/// "projects p 1..8".
pub const MOST_PROJECTS: u64 = 8;
/// "unit kinds n 1..16".
pub const MOST_KINDS: u64 = 16;
/// "frame length F 1..64".
pub const MOST_FRAME: u64 = 64;
/// "1 <= C <= D <= T <= 4095".
pub const MOST_SEPARATION: u64 = 4095;

/// "A project has a ceiling q (1..m) and a budget B (1..qF)."
#[derive(Clone, Copy, Debug, Default, PartialEq, Eq, Hash)]
pub struct Project {
    /// "a ceiling q (1..m)".
    pub ceiling: u8,
    /// "a budget B (1..qF)".
    pub budget: u16,
}

/// "A unit kind names its project and has a separation T, deadline D and length C".
#[derive(Clone, Copy, Debug, Default, PartialEq, Eq, Hash)]
pub struct Kind {
    /// "project from 0".
    pub project: u8,
    /// "a separation T".
    pub separation: u16,
    /// "deadline D".
    pub deadline: u16,
    /// "length C".
    pub length: u16,
}

/// "In the record form, places beyond p or n hold zeros."
#[derive(Clone, Copy, Debug, Default, PartialEq, Eq, Hash)]
pub struct Plan {
    /// "cards m 1..8".
    pub m: u8,
    /// "projects p 1..8".
    pub p: u8,
    /// "unit kinds n 1..16".
    pub n: u8,
    /// "frame length F 1..64".
    pub frame: u8,
    /// The places of the projects; "places beyond p [...] hold zeros".
    pub projects: [Project; 8],
    /// The places of the unit kinds; "places beyond [...] n hold zeros".
    pub kinds: [Kind; 16],
}

impl Plan {
    /// A plan written as in "Plan A, plan B": projects (q,B), kinds "(project,T,D,C)"; places beyond hold zeros.
    pub fn of(m: u8, frame: u8, projects: &[(u8, u16)], kinds: &[(u8, u16, u16, u16)]) -> Plan {
        let mut plan = Plan {
            m,
            p: projects.len() as u8,
            n: kinds.len() as u8,
            frame,
            ..Plan::default()
        };
        for (place, &(ceiling, budget)) in plan.projects.iter_mut().zip(projects) {
            *place = Project { ceiling, budget };
        }
        for (place, &(project, separation, deadline, length)) in plan.kinds.iter_mut().zip(kinds) {
            *place = Kind {
                project,
                separation,
                deadline,
                length,
            };
        }
        plan
    }

    /// "Plan A: 2 cards, frame 4; project 0 q 1, B 3; project 1 q 2, B 5; kinds (project,T,D,C): (0,8,8,6), (1,4,4,2), (1,8,8,2)."
    pub fn a() -> Plan {
        Plan::of(
            2,
            4,
            &[(1, 3), (2, 5)],
            &[(0, 8, 8, 6), (1, 4, 4, 2), (1, 8, 8, 2)],
        )
    }

    /// "Plan B: 2 cards, frame 4; one project q 2, B 8; kinds (0,4,4,1), (0,8,8,3), (0,8,8,2)."
    pub fn b() -> Plan {
        Plan::of(2, 4, &[(2, 8)], &[(0, 4, 4, 1), (0, 8, 8, 3), (0, 8, 8, 2)])
    }

    /// The places of the p projects (all eight when p is out of range).
    pub fn used_projects(&self) -> &[Project] {
        &self.projects[..usize::from(self.p).min(self.projects.len())]
    }

    /// The places of the n unit kinds (all sixteen when n is out of range).
    pub fn used_kinds(&self) -> &[Kind] {
        &self.kinds[..usize::from(self.n).min(self.kinds.len())]
    }

    /// "places beyond p", of the projects.
    pub fn unused_projects(&self) -> &[Project] {
        &self.projects[self.used_projects().len()..]
    }

    /// "places beyond [...] n", of the unit kinds.
    pub fn unused_kinds(&self) -> &[Kind] {
        &self.kinds[self.used_kinds().len()..]
    }
}

/// "1 <= C <= D <= T <= 4095".
pub fn kind_in_range(kind: &Kind) -> bool {
    let t = u64::from(kind.separation);
    let d = u64::from(kind.deadline);
    let c = u64::from(kind.length);
    1 <= c && c <= d && d <= t && t <= MOST_SEPARATION
}

/// 2: "m, p, n or F out of range".
pub fn header_out_of_range(plan: &Plan) -> bool {
    let m = u64::from(plan.m);
    let p = u64::from(plan.p);
    let n = u64::from(plan.n);
    let frame = u64::from(plan.frame);
    !(1..=MOST_CARDS).contains(&m)
        || !(1..=MOST_PROJECTS).contains(&p)
        || !(1..=MOST_KINDS).contains(&n)
        || !(1..=MOST_FRAME).contains(&frame)
}

/// 3, for records: "an unused place not zero".
pub fn unused_place_not_zero(plan: &Plan) -> bool {
    for project in plan.unused_projects() {
        if project.ceiling != 0 || project.budget != 0 {
            return true;
        }
    }
    for kind in plan.unused_kinds() {
        if kind.project != 0 || kind.separation != 0 || kind.deadline != 0 || kind.length != 0 {
            return true;
        }
    }
    false
}

/// 4: "q or B out of range", place "first such project"; where a budget is left open, "4 skipping that one budget".
pub fn first_bad_project(plan: &Plan, open: Option<usize>) -> Option<Answer> {
    let m = u64::from(plan.m);
    let frame = u64::from(plan.frame);
    for (place, project) in plan.used_projects().iter().enumerate() {
        let q = u64::from(project.ceiling);
        let b = u64::from(project.budget);
        let skipped = open == Some(place);
        if !(1..=m).contains(&q) || !skipped && !(1..=q * frame).contains(&b) {
            return Some(Answer::refused_at(4, place));
        }
    }
    None
}

/// "then kind by kind 5 before 6", place "that kind".
pub fn first_bad_kind(plan: &Plan) -> Option<Answer> {
    for (place, kind) in plan.used_kinds().iter().enumerate() {
        // 5: "kind names a project not below p".
        if u64::from(kind.project) >= u64::from(plan.p) {
            return Some(Answer::refused_at(5, place));
        }
        // 6: "not 1 <= C <= D <= T <= 4095".
        if !kind_in_range(kind) {
            return Some(Answer::refused_at(6, place));
        }
    }
    None
}

/// 7: "budgets sum above mF".
pub fn budgets_sum_above(plan: &Plan) -> bool {
    let mut sum = 0u64;
    for project in plan.used_projects() {
        sum += u64::from(project.budget);
    }
    sum > u64::from(plan.m) * u64::from(plan.frame)
}

/// "Records: 2, 3, 4, 5/6, 7."
pub fn check(plan: &Plan) -> Answer {
    if header_out_of_range(plan) {
        return Answer::refused(2);
    }
    if unused_place_not_zero(plan) {
        return Answer::refused(3);
    }
    if let Some(answer) = first_bad_project(plan, None) {
        return answer;
    }
    if let Some(answer) = first_bad_kind(plan) {
        return answer;
    }
    if budgets_sum_above(plan) {
        return Answer::refused(7);
    }
    Answer::GOOD
}
