//! P1 to P11 of document 01, with the slices and the excess of document 02's requests (ii) and (iii), and its line "Run and
//! compared".

use second::supply::supply;
use second::*;

const P1: [u8; 22] = [
    0x22, 0x18, 0x40, 0x10, 0x0C, 0x20, 0x14, 0x00, 0x10, 0x01, 0x00, 0x0C, 0x20, 0x08, 0x00, 0x80,
    0x04, 0x20, 0x10, 0x01, 0x00, 0x04,
];

fn refused(number: u64, place: u64, excess: u64) -> Answer {
    Answer {
        number,
        place,
        excess,
        slice: 0,
    }
}

fn ks(first: &[u8]) -> [u8; 16] {
    let mut k = [0; 16];
    k[..first.len()].copy_from_slice(first);
    k
}

#[test]
fn p1_bytes_of_plan_a() {
    assert_eq!(read(&P1), (Answer::GOOD, Plan::a(), 22));
    let mut buffer = [0xEE; 25];
    assert_eq!(write(&Plan::a(), &mut buffer), (Answer::GOOD, 22));
    assert_eq!(buffer[..22], P1);
    assert_eq!(buffer[22..], [0xEE; 3]);
}

#[test]
fn p2_slot_table_of_plan_a() {
    let mut buffer = [0xEE; 10];
    assert_eq!(slot_table(&Plan::a(), &mut buffer), (Answer::GOOD, 8));
    assert_eq!(buffer, [1, 1, 1, 2, 2, 2, 2, 2, 0xEE, 0xEE]);
}

#[test]
fn p3_supply_of_project_0() {
    let supplies = [0, 1, 3, 4, 8].map(|t| supply(&Plan::a(), 0, 1, t));
    assert_eq!(supplies, [0, 0, 2, 3, 6]);
}

#[test]
fn p4_supply_of_project_1() {
    assert_eq!(supply(&Plan::a(), 1, 1, 4), 4);
    assert_eq!(supply(&Plan::a(), 1, 2, 4), 5);
    assert_eq!(supply(&Plan::a(), 1, 2, 1), 1);
    assert_eq!(supply(&Plan::a(), 1, 2, 3), 3);
}

#[test]
fn p5_plan_a_is_admitted() {
    let admitted = (Answer::GOOD, ks(&[1, 1, 1]), [0; 16]);
    assert_eq!(verdict(&Plan::a()), admitted);
}

#[test]
fn p6_one_slice_too_long() {
    let mut plan = Plan::a();
    plan.kinds[0].length = 7;
    // From each slice two frames hold 6.
    assert_eq!(verdict(&plan), (refused(8, 0, 1), [0; 16], [0; 16]));
    assert_eq!(fresh(&plan), (refused(8, 0, 1), State::default()));
}

#[test]
fn p7_a_deadline_below_the_separation() {
    let mut plan = Plan::a();
    plan.kinds[0] = Kind {
        project: 0,
        separation: 4,
        deadline: 3,
        length: 2,
    };
    // From slice 0 three slices hold 3, from slice 1 they hold 2.
    let admitted = (Answer::GOOD, ks(&[1, 1, 1]), ks(&[1]));
    assert_eq!(verdict(&plan), admitted);
    plan.kinds[0].length = 3;
    let answer = Answer::not_admitted(0, 1, 1);
    assert_eq!(verdict(&plan), (answer, [0; 16], [0; 16]));
    assert_eq!(fresh(&plan), (answer, State::default()));
}

#[test]
fn p8_plan_b_is_admitted() {
    let admitted = (Answer::GOOD, ks(&[2, 1, 1]), [0; 16]);
    assert_eq!(verdict(&Plan::b()), admitted);
}

#[test]
fn p9_the_opening_example_of_000() {
    let plan = Plan::of(2, 1, &[(2, 2)], &[(0, 3, 3, 2), (0, 6, 6, 4), (0, 6, 6, 3)]);
    // "P9 becomes 2": W alone is all that two cards give.
    assert_eq!(verdict(&plan), (refused(8, 0, 2), [0; 16], [0; 16]));
}

#[test]
fn p10_budgets_3_and_6() {
    let mut plan = Plan::a();
    plan.projects[1].budget = 6;
    assert_eq!(check(&plan), refused(7, 0, 0));
    assert_eq!(
        read(&bytes::pack(&plan)),
        (refused(7, 0, 0), Plan::default(), 0)
    );
}

#[test]
fn p11_budgets_5_and_5() {
    let mut plan = Plan::a();
    plan.projects[0].budget = 5;
    assert_eq!(check(&plan), refused(4, 0, 0));
    assert_eq!(
        read(&bytes::pack(&plan)),
        (refused(4, 0, 0), Plan::default(), 0)
    );
}

#[test]
fn n_0_gives_2() {
    let mut plan = Plan::a();
    plan.n = 0;
    assert_eq!(check(&plan), refused(2, 0, 0));
    assert_eq!(
        read(&bytes::pack(&plan)),
        (refused(2, 0, 0), Plan::default(), 0)
    );
}

#[test]
fn two_bytes_give_1() {
    assert_eq!(read(&P1[..2]), (refused(1, 0, 0), Plan::default(), 0));
}

#[test]
fn a_budget_sum_of_exactly_all_cells_passes() {
    let plan = Plan::a();
    let sum: u16 = plan.projects.iter().map(|project| project.budget).sum();
    assert_eq!(sum, u16::from(plan.m) * u16::from(plan.frame));
    assert_eq!(check(&plan), Answer::GOOD);
}

#[test]
fn release_at_exactly_t_passes_and_one_before_gives_14() {
    let (_, state) = fresh(&Plan::a());
    let (answer, mut state) = release(&state, 1, 2);
    assert_eq!(answer, Answer::GOOD);
    let mut row = [0; 2];
    for _ in 0..3 {
        state = slice(&state, &mut row).1;
    }
    assert_eq!(release(&state, 1, 2), (refused(14, 0, 0), state));
    state = slice(&state, &mut row).1;
    let (answer, after) = release(&state, 1, 2);
    assert_eq!(answer, Answer::GOOD);
    assert_eq!(
        after.kinds[1],
        KindState {
            released: true,
            gone: 0,
            left: 2
        }
    );
}

#[test]
fn buffers_one_byte_short() {
    let plan = Plan::a();
    let mut bytes = [0xEE; 21];
    assert_eq!(write(&plan, &mut bytes), (refused(9, 0, 0), 0));
    assert_eq!(bytes, [0xEE; 21]);
    let mut table = [0xEE; 7];
    assert_eq!(slot_table(&plan, &mut table), (refused(9, 0, 0), 0));
    assert_eq!(table, [0xEE; 7]);
    let mut row = [0xEE; 1];
    let (_, state) = fresh(&plan);
    assert_eq!(slice(&state, &mut row), (refused(9, 0, 0), state));
    assert_eq!(row, [0xEE]);
    // The bytes of a plan, one short.
    assert_eq!(read(&P1[..21]), (refused(1, 0, 0), Plan::default(), 0));
}

#[test]
fn reading_hands_the_remainder_on() {
    let more = [&P1[..], &[0xFF, 0xFF]].concat();
    assert_eq!(read(&more), (Answer::GOOD, Plan::a(), 22));
}
