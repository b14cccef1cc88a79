//! Records to compare by: fixed ones, and rounds of generated ones.
//!
//! A record is one image or one string of plan bytes, with the calls made on it. A generated plan is
//! dear (the second program's verdict is asked many times to find it), so each round takes one plan
//! from `generate` and compares much that is near it: the plan with one field nudged, its
//! bytes whole and damaged, states on it, and a run from its fresh start, step by step.

use crate::interface::{
    plan_image, plan_of, state_image, state_of, Case, Op, FIGURES_BYTES, PLAN_IMAGE, SLICE_AT,
    STATE_IMAGE, SUMS_AT, UNIT, UNITS_AT, VERDICT_BYTES,
};
use generate::{
    fixed_damage, fixed_lists, fixed_open_budgets, fixed_plan_records, fixed_state_records,
    fixed_streams, fixed_sums, list_bytes, spare_bits, Generator,
};
use second::bytes::{pack, plan_bytes};
use second::play::{command, Command};
use second::{Kind, KindState, Plan, Project, State};
use std::sync::OnceLock;

/// The calls made on one image or one string of plan bytes.
pub type Record = Vec<Case>;

/// The bytes of the longest list of a rescue.
const MOST_LIST: usize = 342;

/// The functions that are given a plan image and no number.
const ON_PLANS: [Op; 5] = [Op::Check, Op::Write, Op::SlotTable, Op::Verdict, Op::Fresh];

/// The bytes that a function on this plan needs in its second buffer.
fn needed(op: Op, plan: &Plan) -> usize {
    match op {
        Op::Check | Op::SmallestBudget | Op::Release | Op::Advance => 0,
        Op::Read | Op::Build | Op::Rescue => PLAN_IMAGE,
        Op::Write => plan_bytes(plan.p, plan.n),
        Op::SlotTable => usize::from(plan.m) * usize::from(plan.frame),
        Op::Verdict => VERDICT_BYTES,
        Op::Figures => FIGURES_BYTES,
        Op::Fresh => STATE_IMAGE,
        Op::Show => usize::from(plan.m),
    }
    // Beyond what any plan in order needs, more bytes show nothing.
    .min(520)
}

// ---- Fixed records

/// What a fixed record is made of.
pub enum Fixed {
    /// Every function on a plan.
    Plan(Plan),
    /// Releases, showings and an advance of a state.
    State(State),
    /// A few of each, of a state whose sums may differ.
    Sums(State),
    /// Plan bytes, read.
    Bytes(Vec<u8>),
    /// Damaged plan bytes, rescued.
    Damage(Vec<u8>),
    /// One call.
    Call(Case),
    /// A state of this plan with this byte for a kind's released.
    Released(Plan, usize, u8),
}

/// Each refusal at each place, each boundary of a budget left open and of a list, each sum that differs, each change of a rescue, each
/// length of each buffer, each released byte, and all plans and states of a small size.
pub fn fixed() -> &'static [Fixed] {
    // The self-test takes them once for each fault.
    static FIXED: OnceLock<Vec<Fixed>> = OnceLock::new();
    FIXED.get_or_init(all_fixed)
}

fn all_fixed() -> Vec<Fixed> {
    let plans = fixed_plan_records().into_iter().chain(small_plans());
    let states = fixed_state_records().into_iter().chain(small_states());
    let bytes = fixed_streams().into_iter().map(|stream| stream.bytes);
    let open = fixed_open_budgets().into_iter();
    let lists = fixed_lists().into_iter();
    plans
        .map(Fixed::Plan)
        .chain(
            lists
                .flat_map(|(cards, list)| built(cards, &list))
                .map(Fixed::Call),
        )
        .chain(open.map(|(plan, project)| Fixed::Call(open_budget(&plan, project))))
        .chain(states.map(Fixed::State))
        .chain(fixed_sums().into_iter().map(Fixed::Sums))
        .chain(bytes.map(Fixed::Bytes))
        .chain(fixed_damage().into_iter().map(Fixed::Damage))
        .chain(lengths().into_iter().map(Fixed::Call))
        .chain(released_bytes())
        .collect()
}

impl Fixed {
    /// Its calls.
    pub fn record(&self) -> Record {
        match self {
            Fixed::Plan(plan) => on_plan(plan),
            Fixed::State(state) => on_state(state),
            Fixed::Sums(state) => on_sums(state),
            Fixed::Bytes(bytes) => {
                let read = |count| Case::new(Op::Read, bytes.clone(), vec![0xEE; count]);
                vec![read(PLAN_IMAGE), read(PLAN_IMAGE - 1)]
            }
            Fixed::Damage(bytes) => on_damage(bytes),
            Fixed::Call(case) => vec![case.clone()],
            Fixed::Released(plan, place, value) => on_released(plan, *place, *value),
        }
    }
}

/// Every function on the plan, with enough room and with one byte less.
fn on_plan(plan: &Plan) -> Record {
    let image = plan_image(plan).to_vec();
    let mut record = vec![Case::new(Op::Check, image.clone(), Vec::new())];
    for op in [Op::Write, Op::SlotTable, Op::Verdict, Op::Fresh] {
        let room = needed(op, plan);
        record.push(Case::new(op, image.clone(), vec![0xEE; room]));
        // A fresh start judges as the verdict does; once is enough.
        if op != Op::Fresh {
            let less = room.saturating_sub(1);
            record.push(Case::new(op, image.clone(), vec![0xEE; less]));
        }
    }
    // Each kind, and the first that is not there; one byte short; and good only if no more than the low bits are looked at.
    let n = plan.used_kinds().len() as u64;
    let kinds = (0..=n).map(|kind| (kind, FIGURES_BYTES));
    let others = [
        (0, FIGURES_BYTES - 1),
        (n, FIGURES_BYTES - 1),
        (256, FIGURES_BYTES),
    ];
    for (kind, room) in kinds.chain(others) {
        record.push(Case::figures(image.clone(), kind, vec![0xEE; room]));
    }
    // Each project, and the first that is not there.
    for project in 0..=plan.used_projects().len() as u64 {
        if open_effort(plan, project) <= 1_000_000 {
            record.push(open_budget(plan, project));
        }
    }
    record
}

/// A plan of one-kind projects, with enough room and with one byte less.
fn built(cards: u64, list: &[u8]) -> [Case; 2] {
    [PLAN_IMAGE, PLAN_IMAGE - 1].map(|room| Case::build(cards, list.to_vec(), vec![0xEE; room]))
}

/// The smallest budget of a project.
fn open_budget(plan: &Plan, project: u64) -> Case {
    Case::smallest_budget(plan_image(plan).to_vec(), project)
}

/// Showings with enough room and too little, and an advance; releases of the first, the last and no kind, and of each that ran.
fn on_state(state: &State) -> Record {
    let image = state_image(state).to_vec();
    let mut record = Vec::new();
    let m = needed(Op::Show, &state.plan);
    for room in [m, m + 1, m.saturating_sub(1)] {
        record.push(Case::new(Op::Show, image.clone(), vec![0xEE; room]));
    }
    record.push(Case::new(Op::Advance, image.clone(), Vec::new()));
    let n = u64::from(state.plan.n);
    let mut kinds = vec![0, n.saturating_sub(1), n, 16];
    kinds.extend((0..16).filter(|&i| state.kinds[i as usize] != Default::default()));
    for kind in kinds {
        let place = state.plan.kinds.get(kind as usize);
        let c = place.map_or(1, |kind| u64::from(kind.length));
        for e in [0, 1, c, c + 1] {
            record.push(Case::release(image.clone(), kind, e));
        }
    }
    // Good only if no more than the low bits are looked at.
    for (kind, e) in [(256, 1), (1 << 32, 1), (0, 65537), (0, (1 << 32) + 1)] {
        record.push(Case::release(image.clone(), kind, e));
    }
    record.push(Case::release(image, u64::MAX, u64::MAX));
    record
}

/// A showing with room and one without, an advance, and releases: good, of no kind, and of a kind with slices left.
fn on_sums(state: &State) -> Record {
    let image = state_image(state).to_vec();
    let m = needed(Op::Show, &state.plan);
    vec![
        Case::release(image.clone(), 0, 1),
        Case::release(image.clone(), 3, 1),
        Case::release(image.clone(), 16, 0),
        Case::new(Op::Show, image.clone(), vec![0xEE; m]),
        Case::new(Op::Show, image.clone(), Vec::new()),
        Case::new(Op::Advance, image, Vec::new()),
    ]
}

/// The bytes that the list of a rescue needs.
fn list_needed(bytes: &[u8]) -> usize {
    second::rescue(bytes, &mut [0; MOST_LIST]).2
}

/// A rescue with a list that is just long enough, and with one byte less.
fn on_damage(bytes: &[u8]) -> Record {
    let needed = list_needed(bytes);
    let rescue =
        |room: usize| Case::rescue(bytes.to_vec(), vec![0xEE; PLAN_IMAGE], vec![0xEE; room]);
    match needed {
        0 => vec![rescue(0)],
        _ => vec![rescue(needed), rescue(needed - 1)],
    }
}

/// Every length of every buffer, from none to two more than needed.
fn lengths() -> Vec<Case> {
    let mut cases = Vec::new();
    let plan = Plan::a();
    let (_, state) = second::fresh(&plan);
    let image = [&plan_image(&plan)[..], &[0xFF; 2]].concat();
    let running = [&state_image(&state)[..], &[0xFF; 2]].concat();
    let bytes = [&pack(&plan)[..], &[0xFF; 2]].concat();
    for (op, given) in [
        (Op::Check, &image),
        (Op::Read, &bytes),
        (Op::Write, &image),
        (Op::SlotTable, &image),
        (Op::Verdict, &image),
        (Op::Figures, &image),
        (Op::SmallestBudget, &image),
        (Op::Fresh, &image),
        (Op::Show, &running),
        (Op::Advance, &running),
    ] {
        let room = needed(op, &plan);
        for count in 0..=given.len() {
            cases.push(Case::new(op, given[..count].to_vec(), vec![0xEE; room]));
        }
        for count in 0..=room + 2 {
            cases.push(Case::new(op, given.clone(), vec![0xEE; count]));
        }
    }
    for count in 0..=PLAN_IMAGE + 2 {
        cases.push(Case::build(
            2,
            list_bytes(&[(3, 2), (6, 4), (6, 3)]),
            vec![0xEE; count],
        ));
    }
    for count in 0..=running.len() {
        cases.push(Case::release(running[..count].to_vec(), 0, 1));
    }
    // Lists of every length up to a little more than the needed one: of the longest, of damage with many changes, and of single flips.
    let damaged = fixed_damage();
    let many = damaged.iter().take(102).rev().step_by(7);
    let single = damaged.iter().rev().step_by(5003);
    for bytes in many.chain(single) {
        let needed = list_needed(bytes);
        for room in 0..=needed + 7 {
            let (plan, list) = (vec![0xEE; PLAN_IMAGE + 1], vec![0xEE; room]);
            cases.push(Case::rescue(bytes.clone(), plan, list));
        }
        for room in (0..=PLAN_IMAGE + 2).step_by(3).chain([PLAN_IMAGE - 1]) {
            for list in [needed, needed.saturating_sub(1)] {
                let (plan, list) = (vec![0xEE; room], vec![0xEE; list]);
                cases.push(Case::rescue(bytes.clone(), plan, list));
            }
        }
    }
    cases
}

/// Each value of each released byte, on a plan in order and on one that is not.
fn released_bytes() -> impl Iterator<Item = Fixed> {
    let mut wide = Plan::a();
    wide.projects[1].budget = 6;
    [Plan::a(), wide].into_iter().flat_map(|plan| {
        (0..16)
            .flat_map(move |place| (0..=255).map(move |value| Fixed::Released(plan, place, value)))
    })
}

fn on_released(plan: &Plan, place: usize, value: u8) -> Record {
    let state = State {
        plan: *plan,
        slice: 3,
        ..State::default()
    };
    let mut image = state_image(&state).to_vec();
    image[UNITS_AT + UNIT * place] = value;
    vec![
        Case::release(image.clone(), 0, 1),
        Case::release(image.clone(), 12, 1),
        Case::new(Op::Show, image.clone(), vec![0xEE; 2]),
        Case::new(Op::Show, image.clone(), vec![0xEE; 1]),
        Case::new(Op::Advance, image, Vec::new()),
    ]
}

/// All plans with m and F at most 2, one project, one or two kinds and T at most 4.
fn small_plans() -> Vec<Plan> {
    let mut plans = Vec::new();
    let mut kinds = Vec::new();
    for t in 1..=4 {
        for d in 1..=t {
            for c in 1..=d {
                kinds.push((0, t, d, c));
            }
        }
    }
    for (m, frame) in [(1, 1), (1, 2), (2, 1), (2, 2)] {
        for q in 1..=m {
            for b in 1..=u16::from(q * frame) {
                for &first in &kinds {
                    plans.push(Plan::of(m, frame, &[(q, b)], &[first]));
                    for &other in &kinds {
                        plans.push(Plan::of(m, frame, &[(q, b)], &[first, other]));
                    }
                }
            }
        }
    }
    plans
}

/// All states of three kinds that share one or two cards: released never, or just now, two or three slices ago (D or more of two
/// of the kinds), with 0 to 2 left.
fn small_states() -> Vec<State> {
    let plan = Plan::of(2, 2, &[(2, 3)], &[(0, 5, 3, 2), (0, 4, 4, 2), (0, 6, 3, 2)]);
    let mut places = vec![KindState::default()];
    for gone in [0, 2, 3] {
        for left in 0..=2 {
            places.push(KindState {
                released: true,
                gone,
                left,
            });
        }
    }
    let mut states = Vec::new();
    for slice in 0..=1 {
        for &first in &places {
            for &second in &places {
                for &third in &places {
                    let mut state = State {
                        plan,
                        slice,
                        ..State::default()
                    };
                    state.kinds[..3].copy_from_slice(&[first, second, third]);
                    states.push(state.summed());
                }
            }
        }
    }
    states
}

// ---- Generated records

/// Rounds of generated records; the same seed gives the same rounds.
pub struct Rounds {
    seed: u64,
}

impl Rounds {
    /// About so many records are in a round.
    pub const RECORDS: u64 = 60;

    /// The rounds of this seed.
    pub fn new(seed: u64) -> Rounds {
        Rounds { seed }
    }

    /// The records of one round.
    pub fn round(&self, number: u64) -> Vec<Record> {
        let mut g = numbered(self.seed, number);
        let mut records = Vec::new();

        let plan = match g.below(8) {
            0 => g.plan_record(),
            1 => g.just_refused_plan(),
            _ => g.admitted_plan(),
        };
        let effort = effort(&plan);
        records.push(plan_record(&mut g, &plan_image(&plan), effort));
        for _ in 0..(200_000 / effort.max(1)).clamp(1, 16) {
            let mut near = plan;
            for _ in 0..1 + g.below(4) / 3 {
                nudge(&mut g, &mut near);
            }
            let effort = self::effort(&near);
            records.push(plan_record(&mut g, &plan_image(&near), effort));
        }
        for _ in 0..6 {
            let given = damaged_bytes(&mut g, &plan);
            let lent = lent(&mut g, PLAN_IMAGE);
            records.push(vec![Case::new(Op::Read, given, lent)]);
        }
        for _ in 0..3 {
            let mut state = g.state_in_form(&plan);
            state_records(&mut g, &mut state, &mut records);
        }
        run_records(&mut g, &plan, &mut records);

        for _ in 0..6 {
            let (cards, list) = g.cards_and_list();
            let lent = lent(&mut g, PLAN_IMAGE);
            records.push(vec![Case::build(cards, list, lent)]);
        }

        for _ in 0..6 {
            let bytes = g.damaged(&plan);
            let (plan, list) = (lent(&mut g, PLAN_IMAGE), list_lent(&mut g, &bytes));
            records.push(vec![Case::rescue(bytes, plan, list)]);
        }

        // Small plans, where ties and exact fits are common, and a state on each.
        for turn in 0..12 {
            let mut small = small_plan(&mut g);
            if g.one_in(4) {
                nudge(&mut g, &mut small);
            }
            records.push(plan_record(&mut g, &plan_image(&small), 0));
            if turn % 4 == 0 {
                let mut state = g.state_in_form(&small);
                state_records(&mut g, &mut state, &mut records);
            }
        }
        if number.is_multiple_of(8) {
            let mut state = g.state_record();
            state_records(&mut g, &mut state, &mut records);
            let other = g.plan_record();
            let effort = self::effort(&other);
            records.push(plan_record(&mut g, &plan_image(&other), effort));
        }
        records
    }
}

/// The generator of one of many parts; neighbouring seeds and numbers give unlike ones.
pub fn numbered(seed: u64, number: u64) -> Generator {
    let mut g = Generator::new(seed.wrapping_mul(0x1_0000_0001).wrapping_add(number));
    Generator::new(g.number())
}

/// About how many terms the second program adds up to judge this plan.
fn effort(plan: &Plan) -> u64 {
    if !second::check(plan).is_good() {
        return 0;
    }
    let terms = |kind: &Kind| {
        let q = plan.projects[usize::from(kind.project)].ceiling;
        u64::from(q) * u64::from(plan.frame) * u64::from(kind.deadline)
    };
    plan.used_kinds().iter().map(terms).sum()
}

/// The most terms that the second program adds up to find the smallest budget of this project.
fn open_effort(plan: &Plan, project: u64) -> u64 {
    let mut tried = *plan;
    match tried.projects.get_mut(project as usize) {
        Some(place) => place.budget = 1,
        None => return 0,
    }
    // A sum that is too large is told after the search.
    if !matches!(second::check(&tried).number, 0 | 7) {
        return 0;
    }
    let most = u64::from(plan.projects[project as usize].ceiling) * u64::from(plan.frame);
    let own = plan.used_kinds().iter();
    let own = own.filter(|kind| u64::from(kind.project) == project);
    most * most * own.map(|kind| u64::from(kind.deadline)).sum::<u64>()
}

/// Arbitrary bytes.
fn arbitrary(g: &mut Generator, count: usize) -> Vec<u8> {
    let mut bytes = Vec::with_capacity(count + 8);
    while bytes.len() < count {
        bytes.extend(g.number().to_le_bytes());
    }
    bytes.truncate(count);
    bytes
}

/// A lent buffer of arbitrary bytes: mostly enough, sometimes one byte short, shorter, or none.
fn lent(g: &mut Generator, needed: usize) -> Vec<u8> {
    let count = match g.below(16) {
        0 => 0,
        1 => needed.saturating_sub(1),
        2 => g.below(needed as u64 + 1) as usize,
        3..=8 => needed,
        _ => needed + g.between(1, 6) as usize,
    };
    arbitrary(g, count)
}

/// A list for the rescue of these bytes: of a length around the needed one, mostly enough.
fn list_lent(g: &mut Generator, bytes: &[u8]) -> Vec<u8> {
    let needed = list_needed(bytes);
    let count = match g.below(8) {
        0 => g.below(needed as u64 + 1) as usize,
        1 => needed.saturating_sub(g.between(1, 7) as usize),
        2 => MOST_LIST,
        3 => needed + g.between(1, 13) as usize,
        _ => needed,
    };
    arbitrary(g, count)
}

/// An image as it is given: mostly whole, sometimes longer, one byte short or shorter.
fn given(g: &mut Generator, image: &[u8]) -> Vec<u8> {
    let mut image = image.to_vec();
    match g.below(24) {
        0 => image.truncate(g.below(image.len() as u64) as usize),
        1 => image.truncate(image.len() - 1),
        2..=4 => {
            let more = g.between(1, 8) as usize;
            image.extend(arbitrary(g, more));
        }
        _ => {}
    }
    image
}

/// The six functions on a plan image; a fresh start, which judges again, and the smallest budget, which judges often, only
/// sometimes where that is dear.
fn plan_record(g: &mut Generator, image: &[u8; PLAN_IMAGE], effort: u64) -> Record {
    let plan = plan_of(image);
    let image = given(g, image);
    let mut record = Vec::new();
    for op in ON_PLANS {
        if op == Op::Fresh && effort > 50_000 && !g.one_in(4) {
            continue;
        }
        let lent = match op {
            Op::Check => Vec::new(),
            _ => lent(g, needed(op, &plan)),
        };
        record.push(Case::new(op, image.clone(), lent));
    }
    let kind = g.kind_number(&plan);
    let room = lent(g, FIGURES_BYTES);
    record.push(Case::figures(image.clone(), kind, room));
    let project = g.project_number(&plan);
    if g.one_in(1 + open_effort(&plan, project) / 100_000) {
        record.push(Case::smallest_budget(image, project));
    }
    record
}

/// One more or one less, mostly; sometimes an end of the range.
fn step(g: &mut Generator, value: u16, most: u16) -> u16 {
    match g.below(12) {
        0 => 0,
        1 => most,
        2 => most.saturating_add(1),
        3 => g.number() as u16,
        4..=7 => value.saturating_sub(1),
        _ => value.saturating_add(1),
    }
}

fn step_byte(g: &mut Generator, value: u8, most: u8) -> u8 {
    step(g, u16::from(value), u16::from(most)).min(255) as u8
}

/// One change to one field of a plan, or two places changed over.
fn nudge(g: &mut Generator, plan: &mut Plan) {
    let (p, n) = (
        plan.used_projects().len().max(1) as u64,
        plan.used_kinds().len().max(1) as u64,
    );
    let (i, other_project) = (g.below(p) as usize, g.below(p) as usize);
    let (j, other_kind) = (g.below(n) as usize, g.below(n) as usize);
    let kind = &mut plan.kinds[j];
    let project = &mut plan.projects[i];
    match g.below(26) {
        0..=4 => kind.length = step(g, kind.length, kind.deadline),
        5..=7 => kind.deadline = step(g, kind.deadline, kind.separation),
        8..=10 => kind.separation = step(g, kind.separation, 4095),
        11..=13 => {
            let most = u16::from(project.ceiling) * u16::from(plan.frame);
            project.budget = step(g, project.budget, most);
        }
        14 | 15 => project.ceiling = step_byte(g, project.ceiling, plan.m),
        16 | 17 => kind.project = g.below(p + 1) as u8,
        18 => plan.frame = step_byte(g, plan.frame, 64),
        19 => plan.m = step_byte(g, plan.m, 8),
        20 => {
            // The last kind is taken away, with its place or without.
            plan.n = plan.n.saturating_sub(1);
            if g.one_in(2) {
                plan.kinds[usize::from(plan.n).min(15)] = Kind::default();
            }
        }
        21 => {
            // One kind more, a copy of another or empty.
            if plan.n < 16 {
                if g.one_in(2) {
                    plan.kinds[usize::from(plan.n)] = plan.kinds[j];
                }
                plan.n += 1;
            }
        }
        22 => {
            plan.p = step_byte(g, plan.p, 8);
            if g.one_in(2) {
                for place in plan.projects.iter_mut().skip(usize::from(plan.p)) {
                    *place = Project::default();
                }
            }
        }
        23 => plan.kinds.swap(j, other_kind),
        24 => plan.projects.swap(i, other_project),
        _ => {
            // Any bit of the image.
            let mut image = plan_image(plan);
            image[g.below(PLAN_IMAGE as u64) as usize] ^= 1 << g.below(8);
            *plan = plan_of(&image);
        }
    }
}

/// A plan of few cards, slices and kinds, with short times.
fn small_plan(g: &mut Generator) -> Plan {
    let m = g.between(1, 3);
    let frame = g.between(1, 5);
    let p = g.between(1, 3.min(m * frame));
    let n = g.between(1, 5);
    let mut free = m * frame;
    let mut projects = Vec::new();
    for i in 0..p {
        let q = g.between(1, m);
        let most = (q * frame).min(free - (p - 1 - i));
        let b = g.towards_ends(1, most);
        free -= b;
        projects.push((q as u8, b as u16));
    }
    let share = g.between(1, 4);
    let mut kinds = Vec::new();
    for _ in 0..n {
        let t = g.between(1, 12);
        let d = if g.one_in(2) { t } else { g.between(1, t) };
        let c = g.between(1, (d / share).max(1));
        kinds.push((g.below(p) as u8, t as u16, d as u16, c as u16));
    }
    Plan::of(m as u8, frame as u8, &projects, &kinds)
}

/// The bytes of a plan: whole with more behind, cut, with bits flipped, with another field, or arbitrary.
fn damaged_bytes(g: &mut Generator, plan: &Plan) -> Vec<u8> {
    let mut near = *plan;
    if g.one_in(3) {
        nudge(g, &mut near);
    }
    let mut bytes = pack(&near);
    let flip = |bytes: &mut Vec<u8>, bit: u64| {
        if let Some(byte) = bytes.get_mut(bit as usize / 8) {
            *byte ^= 1 << (7 - bit % 8);
        }
    };
    match g.below(8) {
        0 => bytes.truncate(g.below(bytes.len() as u64) as usize),
        1 => bytes.truncate(bytes.len() - 1),
        2 | 3 => {
            let spare = spare_bits(&near);
            for _ in 0..g.between(1, 2) {
                let bit = spare[g.below(spare.len() as u64) as usize];
                flip(&mut bytes, bit);
            }
        }
        4 => {
            for _ in 0..g.between(1, 3) {
                let bit = g.below(8 * bytes.len() as u64);
                flip(&mut bytes, bit);
            }
        }
        5 => {
            // Arbitrary bytes, half of them behind a header in range.
            let count = g.below(120) as usize;
            let header = bytes;
            bytes = arbitrary(g, count);
            if g.one_in(2) {
                for (place, byte) in bytes.iter_mut().zip(&header[..3]) {
                    *place = *byte;
                }
            }
        }
        _ => {}
    }
    if g.one_in(2) {
        let more = g.below(8) as usize;
        bytes.extend(arbitrary(g, more));
    }
    bytes
}

/// A state, and the same with one or two bytes changed: a release, a showing and an advance on each.
fn state_records(g: &mut Generator, state: &mut State, records: &mut Vec<Record>) {
    // Few slices until each deadline make equal ones likely.
    if g.one_in(4) {
        for (place, kind) in state.kinds.iter_mut().zip(state.plan.used_kinds()) {
            if place.released {
                let until = g.between(1, 3) as u16;
                place.gone = kind.deadline.saturating_sub(until);
            }
        }
    }
    let mut image = state_image(state);
    records.push(state_record(g, &image));
    for _ in 0..g.between(1, 2) {
        nudge_state(g, &mut image);
    }
    records.push(state_record(g, &image));
}

/// A release, a showing and an advance on a state image.
fn state_record(g: &mut Generator, image: &[u8; STATE_IMAGE]) -> Record {
    let mut readable = *image;
    for place in 0..16 {
        let released = &mut readable[UNITS_AT + UNIT * place];
        *released = (*released).min(1);
    }
    let state = state_of(&readable).unwrap_or_default();
    let (kind, e) = g.release_numbers(&state);
    let image = given(g, image);
    let row = lent(g, needed(Op::Show, &state.plan));
    vec![
        Case::release(image.clone(), kind, e),
        Case::new(Op::Show, image.clone(), row),
        Case::new(Op::Advance, image, Vec::new()),
    ]
}

/// One field of a running state, or any byte of it.
fn nudge_state(g: &mut Generator, image: &mut [u8; STATE_IMAGE]) {
    let n = u64::from(image[2]).clamp(1, 16);
    let place = match g.below(8) {
        0 => g.below(16),
        _ => g.below(n),
    };
    let at = UNITS_AT + UNIT * place as usize;
    // A kind's T, D or C, from its place in the plan.
    let of_kind = |image: &[u8], field: usize| {
        let at = 28 + 7 * place as usize + 1 + 2 * field;
        u16::from_be_bytes([image[at], image[at + 1]])
    };
    let add = |g: &mut Generator, field: &mut [u8]| {
        // One more or one less, as one big-endian number.
        let up = g.one_in(2);
        for byte in field.iter_mut().rev() {
            let (next, carry) = match up {
                true => byte.overflowing_add(1),
                false => byte.overflowing_sub(1),
            };
            *byte = next;
            if !carry {
                break;
            }
        }
    };
    let project = match g.below(8) {
        0 => g.below(8),
        _ => g.below(u64::from(image[1]).clamp(1, 8)),
    };
    let sum = SUMS_AT + 2 * project as usize;
    match g.below(13) {
        0 => image[g.below(STATE_IMAGE as u64) as usize] = g.number() as u8,
        1 => image[at] = g.number() as u8,
        2 => image[at] ^= 1,
        3 => image[SLICE_AT] = image[3].saturating_sub(1).saturating_add(g.below(3) as u8),
        4 | 5 => add(g, &mut image[SLICE_AT..SLICE_AT + 1]),
        6 => add(g, &mut image[at + 1..at + 3]),
        7 => {
            // Around T, or around D.
            let field = g.below(2) as usize;
            let near = of_kind(image, field).saturating_sub(1);
            let gone = near.saturating_add(g.below(3) as u16);
            image[at + 1..at + 3].copy_from_slice(&gone.to_be_bytes());
        }
        8 => add(g, &mut image[sum..sum + 2]),
        9 => image[sum + g.below(2) as usize] ^= 1 << g.below(8),
        10 => {
            // Two sums changed over.
            let other = SUMS_AT + 2 * g.below(8) as usize;
            image.swap(sum, other);
            image.swap(sum + 1, other + 1);
        }
        _ => add(g, &mut image[at + 3..at + 5]),
    }
    // The sums go with what is left, or do not.
    if let (true, Some(state)) = (g.one_in(2), state_of(image)) {
        *image = state_image(&state.summed());
    }
}

/// A run from the fresh start, if the plan is admitted: each step on the state before it. The host shows a slice once, several times,
/// with too short a row or not at all, and a release may fall between a showing and its slice.
fn run_records(g: &mut Generator, plan: &Plan, records: &mut Vec<Record>) {
    let (answer, mut state) = second::fresh(plan);
    if !answer.is_good() {
        return;
    }
    let count = g.between(2, 24);
    let (commands, _) = g.run(state, count);
    let m = usize::from(plan.m);
    for bytes in commands.chunks_exact(3) {
        let image = state_image(&state).to_vec();
        // What is shown before a release is shown again after it, or not.
        let mut record = Vec::new();
        for _ in 0..g.below(3) {
            let room = match g.below(4) {
                0 => g.below(m as u64) as usize,
                _ => m + g.below(3) as usize,
            };
            let row = arbitrary(g, room);
            record.push(Case::new(Op::Show, image.clone(), row));
        }
        match command(bytes) {
            Command::Release { kind, e } => {
                record.push(Case::release(image, kind, e));
                state = second::release(&state, kind, e).1;
                record.push(Case::new(
                    Op::Advance,
                    state_image(&state).to_vec(),
                    Vec::new(),
                ));
            }
            _ => {
                record.push(Case::new(Op::Advance, image, Vec::new()));
                state = second::advance(&state).1;
            }
        }
        records.push(record);
    }
}
