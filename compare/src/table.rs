//! What document 01 gives in numbers: P1 to P11, "Run and compared" and the player's example; and of
//! document 02's requests what the proved table has of them.
//!
//! Here the expected outcome is written down, so that both sides are held to it. P3 and P4 speak of
//! supply: the figures of a kind have it at the kind's deadline (at t = 0, which no deadline is, the
//! second program's own tests have it).

use crate::interface::{
    plan_image, state_image, word, Case, Op, Outcome, FIGURES_BYTES, PLAN_IMAGE, STATE_IMAGE,
    VERDICT_BYTES,
};
use generate::{list_bytes, release_bytes, SLICE};
use second::bytes::pack;
use second::{Answer, Kind, KindState, Plan, Project, State};

/// A case of document 01 and what it must give.
pub struct Named {
    /// Where 01 says it.
    pub name: &'static str,
    /// The call.
    pub case: Case,
    /// The word, and both buffers after the call.
    pub expected: Outcome,
}

const PLAN_A: [u8; 22] = [
    0x22, 0x18, 0x40, 0x10, 0x0C, 0x20, 0x14, 0x00, 0x10, 0x01, 0x00, 0x0C, 0x20, 0x08, 0x00, 0x80,
    0x04, 0x20, 0x10, 0x01, 0x00, 0x04,
];

/// Collects the cases: a good call names the bytes it puts first in the lent buffer, a refused one its number.
struct Table {
    rows: Vec<Named>,
}

impl Table {
    fn good(&mut self, name: &'static str, case: Case, count: usize, first: &[u8]) {
        let mut lent = case.lent.clone();
        lent[..first.len()].copy_from_slice(first);
        let expected = Outcome {
            word: word(Answer::GOOD, count),
            given: case.given.clone(),
            lent,
            list: case.list.clone(),
            outside: false,
        };
        self.rows.push(Named {
            name,
            case,
            expected,
        });
    }

    fn refused(&mut self, name: &'static str, case: Case, number: u64, place: u64, excess: u64) {
        let answer = Answer {
            number,
            place,
            excess,
            slice: 0,
        };
        self.answered(name, case, answer);
    }

    fn answered(&mut self, name: &'static str, case: Case, answer: Answer) {
        let expected = Outcome {
            word: word(answer, 0),
            given: case.given.clone(),
            lent: case.lent.clone(),
            list: case.list.clone(),
            outside: false,
        };
        self.rows.push(Named {
            name,
            case,
            expected,
        });
    }

    /// The verdict and the fresh start alike, at kind 0.
    fn refused_by_8(&mut self, name: &'static str, plan: &Plan, excess: u64, slice: u64) {
        for op in [Op::Verdict, Op::Fresh] {
            let answer = Answer::not_admitted(0, excess, slice);
            self.answered(name, on(plan, op, STATE_IMAGE), answer);
        }
    }

    fn admitted(&mut self, name: &'static str, plan: &Plan, k: &[u8], slices: &[u8]) {
        let mut verdict = [0; VERDICT_BYTES];
        verdict[..k.len()].copy_from_slice(k);
        verdict[16..16 + slices.len()].copy_from_slice(slices);
        self.good(name, on(plan, Op::Verdict, VERDICT_BYTES + 2), 0, &verdict);
        let fresh = State {
            plan: *plan,
            ..State::default()
        };
        let case = on(plan, Op::Fresh, STATE_IMAGE + 2);
        self.good(name, case, 0, &state_image(&fresh));
    }

    /// The record and its bytes, both refused before the verdict.
    fn out_of_order(&mut self, name: &'static str, plan: &Plan, number: u64, place: u64) {
        for op in [Op::Check, Op::Write, Op::SlotTable, Op::Verdict, Op::Fresh] {
            let lent = if op == Op::Check { 0 } else { 600 };
            self.refused(name, on(plan, op, lent), number, place, 0);
        }
        self.refused(name, reading(&pack(plan), PLAN_IMAGE), number, place, 0);
    }
}

/// P10's plan, whose budgets sum above mF.
fn wider_by_7() -> Plan {
    let mut plan = Plan::a();
    plan.projects[1].budget = 6;
    plan
}

fn lent(count: usize) -> Vec<u8> {
    vec![0xEE; count]
}

fn on(plan: &Plan, op: Op, count: usize) -> Case {
    Case::new(op, plan_image(plan).to_vec(), lent(count))
}

fn reading(bytes: &[u8], count: usize) -> Case {
    Case::new(Op::Read, bytes.to_vec(), lent(count))
}

fn showing(state: &State, count: usize) -> Case {
    Case::new(Op::Show, state_image(state).to_vec(), lent(count))
}

fn open(plan: &Plan, project: u64) -> Case {
    Case::smallest_budget(plan_image(plan).to_vec(), project)
}

fn figuring(plan: &Plan, kind: u64) -> Case {
    Case::figures(plan_image(plan).to_vec(), kind, lent(FIGURES_BYTES + 2))
}

/// Plan A with another deadline, and the length 1, for a kind.
fn due(kind: usize, deadline: u16) -> Plan {
    let mut plan = Plan::a();
    (plan.kinds[kind].deadline, plan.kinds[kind].length) = (deadline, 1);
    plan
}

/// The bytes of figures.
fn figures(workload: u32, supply: &[u32], slice: &[u8]) -> [u8; FIGURES_BYTES] {
    let mut bytes = [0; FIGURES_BYTES];
    for (place, number) in [workload].iter().chain(supply).enumerate() {
        bytes[4 * place..4 * place + 4].copy_from_slice(&number.to_be_bytes());
    }
    bytes[36..36 + slice.len()].copy_from_slice(slice);
    bytes
}

fn advancing(state: &State) -> Case {
    Case::new(Op::Advance, state_image(state).to_vec(), Vec::new())
}

/// P1 to P11, "Run and compared", the requests and the figures.
pub fn table() -> Vec<Named> {
    let mut table = Table { rows: Vec::new() };
    let (a, b) = (Plan::a(), Plan::b());

    let image = plan_image(&a);
    table.good("P1, read", reading(&PLAN_A, PLAN_IMAGE), 22, &image);
    let more = [&PLAN_A[..], &[0xFF, 0xFF]].concat();
    table.good(
        "P1, more behind",
        reading(&more, PLAN_IMAGE + 1),
        22,
        &image,
    );
    table.good("P1, written", on(&a, Op::Write, 25), 22, &PLAN_A);
    let slots = [1, 1, 1, 2, 2, 2, 2, 2];
    table.good("P2", on(&a, Op::SlotTable, 10), 8, &slots);
    for (deadline, supply, slice) in [(1, 0, 3), (3, 2, 1), (4, 3, 0), (8, 6, 0)] {
        let told = figures(0, &[supply], &[slice]);
        table.good("P3", figuring(&due(0, deadline), 0), 1, &told);
    }
    for (deadline, workload, supply) in [(4, 2, [4, 5]), (1, 1, [1, 1]), (3, 2, [3, 3])] {
        let told = figures(workload, &supply, &[0, 0]);
        table.good("P4", figuring(&due(1, deadline), 1), 2, &told);
    }
    table.admitted("P5", &a, &[1, 1, 1], &[0, 0, 0]);
    let mut longer = a;
    longer.kinds[0].length = 7;
    table.refused_by_8("P6", &longer, 1, 0);
    let mut earlier = a;
    for length in [2, 3] {
        earlier.kinds[0] = Kind {
            project: 0,
            separation: 4,
            deadline: 3,
            length,
        };
        match length {
            2 => table.admitted("P7 with C 2", &earlier, &[1, 1, 1], &[1, 0, 0]),
            _ => table.refused_by_8("P7 with C 3", &earlier, 1, 1),
        }
    }
    table.admitted("P8", &b, &[2, 1, 1], &[0, 0, 0]);
    let opening = Plan::of(2, 1, &[(2, 2)], &[(0, 3, 3, 2), (0, 6, 6, 4), (0, 6, 6, 3)]);
    table.refused_by_8("P9", &opening, 2, 0);
    let mut longer = b;
    longer.kinds[0].length = 3;
    table.refused_by_8("(iii)", &longer, 2, 0);
    table.out_of_order("P10", &wider_by_7(), 7, 0);
    let mut wider = a;
    wider.projects[0].budget = 5;
    table.out_of_order("P11", &wider, 4, 0);

    // (i): a guess that is right, one that is too large, one that is too small, and a project that is not there.
    let mut smaller = b;
    smaller.projects[0].budget = 5;
    for (plan, project, budget) in [(&a, 0, 3), (&a, 1, 4), (&b, 0, 7)] {
        table.good("(i)", open(plan, project), budget, &[]);
    }
    table.refused("(i), no such project", open(&a, 2), 27, 0, 0);
    table.refused_by_8("(i), a guess too small", &smaller, 1, 0);
    table.good("(i), a guess too small", open(&smaller, 0), 7, &[]);
    table.refused("(i), none serves", open(&opening, 0), 8, 0, 2);

    // The figures of plan A, of a plan that is not admitted, of no kind, and in a buffer that is short.
    let mut longer = a;
    longer.kinds[0].length = 7;
    let told = figures(2, &[4, 5], &[0, 0]);
    table.good("F1", figuring(&a, 1), 2, &told);
    let told = figures(0, &[6], &[0]);
    table.good("F2", figuring(&longer, 0), 1, &told);
    table.refused("F3", figuring(&a, 3), 12, 0, 0);
    let short = Case::figures(plan_image(&a).to_vec(), 0, lent(FIGURES_BYTES - 1));
    table.refused("figures, one byte short", short, 9, 0, 0);

    // (vi): 000's opening kinds, each a project of its own; sums of exactly m; within m and not of multiples.
    let build =
        |m: u64, list: &[(u16, u16)]| Case::build(m, list_bytes(list), lent(PLAN_IMAGE + 2));
    let kinds = [(0, 3, 3, 2), (1, 6, 6, 4), (2, 6, 6, 3)];
    let alone = plan_image(&Plan::of(2, 3, &[(1, 2); 3], &kinds));
    table.good("(vi)", build(2, &[(3, 2), (6, 4), (6, 3)]), 0, &alone);
    let kinds = [(0, 4, 4, 3), (1, 4, 4, 3), (2, 8, 8, 4)];
    let filled = plan_image(&Plan::of(2, 4, &[(1, 3), (1, 3), (1, 2)], &kinds));
    table.good(
        "(vi), exactly m",
        build(2, &[(4, 3), (4, 3), (8, 4)]),
        0,
        &filled,
    );
    let uneven = build(1, &[(2, 1), (3, 1)]);
    table.refused("(vi), not of multiples", uneven, 7, 0, 0);
    table.refused("(vi), no cards", build(0, &[(2, 1)]), 17, 0, 0);
    table.refused("(vi), an empty list", build(1, &[]), 17, 0, 0);
    table.refused("(vi), nine kinds", build(8, &[(1, 1); 9]), 18, 0, 0);
    table.refused("(vi), kind 1", build(1, &[(2, 1), (2, 3)]), 6, 1, 0);
    table.refused("(vi), 65", build(1, &[(65, 1)]), 19, 0, 0);
    let mut cut = build(1, &[(2, 1), (2, 1)]);
    cut.given.pop();
    table.refused("(vi), no list", cut, 17, 0, 0);
    let short = Case::build(1, list_bytes(&[(2, 1)]), lent(PLAN_IMAGE - 1));
    table.refused("(vi), one byte short", short, 9, 0, 0);

    // (viii): plan A with a spare bit, q 0 of project 1 (and so its B of 5 above 4), and kind 0 of no project.
    let rescuing =
        |bytes: &[u8], room: usize| Case::rescue(bytes.to_vec(), lent(PLAN_IMAGE + 2), lent(room));
    let mut damaged = PLAN_A;
    damaged[2] |= 2;
    damaged[5] &= 0x0F;
    damaged[7] |= 0x40;
    let mut rescued = a;
    rescued.projects[1] = Project {
        ceiling: 1,
        budget: 4,
    };
    rescued.n = 2;
    rescued.kinds.rotate_left(1);
    rescued.kinds[15] = Kind::default();
    let image = plan_image(&rescued);
    table.good("(viii)", rescuing(&damaged, 26), 24, &image);
    if let Some(row) = table.rows.last_mut() {
        let entries = [
            [1, 0, 0, 2, 0, 0],
            [4, 1, 0, 0, 0, 1],
            [5, 1, 0, 5, 0, 4],
            [7, 0, 0, 0, 0, 0],
        ];
        row.expected.list[..24].copy_from_slice(&entries.concat());
    }
    table.refused("(viii), one byte short", rescuing(&damaged, 23), 9, 0, 0);
    let mut short = rescuing(&damaged, 24);
    short.lent.truncate(PLAN_IMAGE - 1);
    table.refused("(viii), one byte short", short, 9, 0, 0);
    let image = plan_image(&a);
    table.good("(viii), in order", rescuing(&PLAN_A, 0), 0, &image);
    let wide = pack(&wider_by_7());
    let image = plan_image(&wider_by_7());
    table.good("(viii), 7 or not", rescuing(&wide, 0), 0, &image);
    table.good(
        "(viii), the result's bytes",
        rescuing(&pack(&rescued), 0),
        0,
        &plan_image(&rescued),
    );
    damaged[7..].fill(0);
    table.refused("(viii), no kind remains", rescuing(&damaged, 0), 20, 0, 0);
    table.refused("(viii), two bytes", rescuing(&damaged[..2], 342), 1, 0, 0);
    table.refused(
        "(viii), one byte fewer",
        rescuing(&damaged[..21], 342),
        1,
        0,
        0,
    );
    damaged[0] = 0x02;
    table.refused("(viii), no cards", rescuing(&damaged[..3], 0), 2, 0, 0);

    let none = Plan {
        n: 0,
        kinds: [Kind::default(); 16],
        ..a
    };
    table.out_of_order("n = 0 gives 2", &none, 2, 0);
    let two = reading(&PLAN_A[..2], PLAN_IMAGE);
    table.refused("two bytes give 1", two, 1, 0, 0);
    let exactly = "a budget sum of exactly mF passes";
    table.good(exactly, on(&a, Op::Check, 0), 0, &[]);

    // Kind 1 of plan A has T 4 and was released in the first slice of the frame.
    let mut state = State {
        plan: a,
        slice: 3,
        ..State::default()
    };
    state.kinds[1] = KindState {
        released: true,
        gone: 3,
        left: 0,
    };
    let case = Case::release(state_image(&state).to_vec(), 1, 2);
    table.refused("release at T-1 gives 14", case, 14, 0, 0);
    state.slice = 0;
    state.kinds[1].gone = 4;
    let held = state;
    let case = Case::release(state_image(&state).to_vec(), 1, 2);
    state.kinds[1] = KindState {
        released: true,
        gone: 0,
        left: 2,
    };
    state.sums[1] = 2;
    table.good("release at exactly T passes", case, 0, &[]);
    if let Some(row) = table.rows.last_mut() {
        row.expected.given = state_image(&state).to_vec();
    }

    // (iv): kind 1 is to run on card 1; the showing keeps the state, and advancing wants no row.
    table.good("(iv), shown", showing(&state, 3), 0, &[0, 2]);
    let case = advancing(&state);
    let mut after = State { slice: 1, ..state };
    after.kinds[1].gone = 1;
    after.kinds[1].left = 1;
    after.sums[1] = 1;
    table.good("(iv), advanced", case, 0, &[]);
    if let Some(row) = table.rows.last_mut() {
        row.expected.given = state_image(&after).to_vec();
    }

    // (ix): what is gone is held at T, and raised for no kind that was never released; behind the last slice comes the first.
    let end = State { slice: 3, ..held };
    for (before, slice) in [(&held, 1), (&end, 0)] {
        table.good("(ix), held at T", advancing(before), 0, &[]);
        if let Some(row) = table.rows.last_mut() {
            row.expected.given = state_image(&State { slice, ..*before }).to_vec();
        }
    }
    // Work left D slices after the release, more than T gone, any gone of a kind never released, and a slice of no frame: 10. With work
    // left and T not gone, 14; no state says 11 or 15.
    let mut unit = |gone, left, number| {
        let mut state = held;
        state.kinds[1].gone = gone;
        state.kinds[1].left = left;
        state.sums[1] = left;
        let case = Case::release(state_image(&state).to_vec(), 1, 2);
        table.refused("(ix), form", case, number, 0, 0);
    };
    unit(3, 1, 14);
    unit(4, 1, 10);
    unit(5, 0, 10);
    let mut never = State { plan: a, ..end };
    never.kinds[0].gone = 1;
    let beyond = State { slice: 4, ..held };
    for state in [&never, &beyond] {
        table.refused("(ix), form", showing(state, 2), 10, 0, 0);
        table.refused("(ix), form", advancing(state), 10, 0, 0);
    }
    // Ranked by slices left until the deadline: 8 less 7 before 4 less 2.
    let mut two = State {
        plan: a,
        ..State::default()
    };
    for (kind, gone) in [(1, 2), (2, 7)] {
        two.kinds[kind] = KindState {
            released: true,
            gone,
            left: 1,
        };
    }
    table.good("(ix), ranked", showing(&two.summed(), 2), 0, &[0, 3]);

    // (vii): one bit of a sum, of slices left, and of a sum beyond p; 10 before 16, and 16 before 9 and 12.
    let (mut sum, mut left, mut beyond) = (state, state, state);
    sum.sums[1] ^= 1;
    left.kinds[1].left ^= 2;
    beyond.sums[2] ^= 1;
    for (state, number) in [(&sum, 16), (&left, 16), (&beyond, 10)] {
        let releasing = |kind, e| Case::release(state_image(state).to_vec(), kind, e);
        for case in [
            showing(state, 2),
            showing(state, 1),
            advancing(state),
            releasing(0, 6),
            releasing(3, 0),
        ] {
            table.refused("(vii), a flipped bit", case, number, 0, 0);
        }
    }
    let mut flipped = end;
    flipped.sums[0] = 1;
    table.refused("(vii), 16", advancing(&flipped), 16, 0, 0);
    flipped.slice += 1;
    table.refused("(vii), 10 before 16", advancing(&flipped), 10, 0, 0);

    let short = "one byte short";
    table.refused(short, reading(&PLAN_A[..21], PLAN_IMAGE), 1, 0, 0);
    table.refused(short, reading(&PLAN_A, PLAN_IMAGE - 1), 9, 0, 0);
    table.refused(short, on(&a, Op::Write, 21), 9, 0, 0);
    table.refused(short, on(&a, Op::SlotTable, 7), 9, 0, 0);
    table.refused(short, on(&a, Op::Verdict, VERDICT_BYTES - 1), 9, 0, 0);
    table.refused(short, on(&a, Op::Fresh, STATE_IMAGE - 1), 9, 0, 0);
    table.refused(short, showing(&state, 1), 9, 0, 0);
    for op in [Op::Check, Op::Write, Op::SlotTable, Op::Verdict, Op::Fresh] {
        let mut case = on(&a, op, 300);
        case.given.pop();
        if op == Op::Check {
            case.lent.clear();
        }
        table.refused(short, case, 9, 0, 0);
    }
    for mut case in [showing(&state, 8), advancing(&state)] {
        case.given.pop();
        table.refused(short, case, 9, 0, 0);
    }
    let mut case = Case::release(state_image(&state).to_vec(), 2, 1);
    case.given.pop();
    table.refused(short, case, 9, 0, 0);
    table.rows
}

/// The player's example: its input and its eleven lines.
pub fn example() -> (Vec<u8>, &'static str) {
    let mut input = PLAN_A.to_vec();
    for (kind, e) in [(0, 6), (1, 2), (2, 2)] {
        input.extend(release_bytes(kind, e));
    }
    input.extend(SLICE.repeat(4));
    for (kind, e) in [(1, 2), (2, 1)] {
        input.extend(release_bytes(kind, e));
    }
    (input, include_str!("../../samples/example.txt"))
}

/// "Run and compared" where a stream can show it, and its lines: n = 0, two bytes, all cells, T-1 and T.
pub fn run_and_compared() -> Vec<(&'static str, Vec<u8>, &'static str)> {
    let mut none = PLAN_A;
    // The n of the header is its bits 8 to 12.
    none[1] &= 0b0000_0111;
    let release = release_bytes(1, 2);
    let mut early = PLAN_A.to_vec();
    early.extend(release);
    early.extend(SLICE.repeat(3));
    early.extend(release);
    early.extend(SLICE);
    early.extend(release);
    vec![
        ("n = 0 gives 2", none.to_vec(), "plan refused 2 at 0\n"),
        (
            "two bytes give 1",
            PLAN_A[..2].to_vec(),
            "plan refused 1 at 0\n",
        ),
        (
            "a budget sum of exactly mF passes",
            PLAN_A.to_vec(),
            "plan ok\nend 0\n",
        ),
        (
            "release at exactly T passes, at T-1 gives 14",
            early,
            "plan ok\nr 1 2 ok\nt 0: 0 2\nt 1: 0 2\nt 2: 0 0\nr 1 2 refused 14\nt 3: 0 0\nr 1 2 ok\nend 0\n",
        ),
    ]
}
