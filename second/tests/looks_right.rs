//! "Errors that look right": for each, what the error would give, and that this program does not.

use second::layout::h;
use second::supply::supply;
use second::verdict::{asked_and_supplied, workload};
use second::*;

/// "8: not admitted", at kind 0, with excess 1, worst for a unit that arrives in this slice.
fn short_by_one(slice: u64) -> Answer {
    Answer::not_admitted(0, 1, slice)
}

/// A hand-made start in a slice of the frame: "the record order, 10, 9, 11" has no 8, so a refused plan runs all the same.
fn started(plan: &Plan, slice: u8) -> State {
    State {
        plan: *plan,
        slice,
        ..State::default()
    }
}

fn sliced(state: State, count: u32) -> State {
    let mut state = state;
    let mut row = [0; 8];
    for _ in 0..count {
        let (answer, next) = slice(&state, &mut row);
        assert_eq!(answer, Answer::GOOD);
        state = next;
    }
    state
}

fn released(state: State, kind: u64, e: u64) -> State {
    let (answer, state) = release(&state, kind, e);
    assert_eq!(answer, Answer::GOOD);
    state
}

#[test]
fn supply_is_not_taken_from_the_frames_start_only() {
    // h is 1 1 1 0: from the start one slice gives 1, but from slice 3 it gives 0.
    let plan = Plan::of(1, 4, &[(1, 3)], &[(0, 4, 1, 1)]);
    assert_eq!(h(&plan, 0), [1, 1, 1, 0]);
    assert_eq!(supply(&plan, 0, 1, 1), 0);
    assert_eq!(verdict(&plan).0, short_by_one(3));
    // The refusal is right: released in slice 3, the unit is not finished one slice later.
    let late = sliced(released(started(&plan, 3), 0, 1), 1);
    assert_eq!(
        (late.slice, late.kinds[0].gone, late.kinds[0].left),
        (0, 1, 1)
    );
}

#[test]
fn supply_is_not_the_budgets_share_of_t() {
    // floor(Bt/F) is floor(2*2/4) = 1, but two slices in a row are without a card.
    let plan = Plan::of(1, 4, &[(1, 2)], &[(0, 4, 2, 1)]);
    let (b, t, frame) = (2, 2, 4);
    assert_eq!(b * t / frame, 1);
    assert_eq!(supply(&plan, 0, 1, t), 0);
    assert_eq!(verdict(&plan).0, short_by_one(2));
    let late = sliced(released(started(&plan, 2), 0, 1), 2);
    assert_eq!(
        (late.slice, late.kinds[0].gone, late.kinds[0].left),
        (0, 2, 1)
    );
}

#[test]
fn not_only_k_equal_q_counts() {
    // "Plan A's kind 1 then asks 4 + 2 against 5 and is wrongly refused."
    let plan = Plan::a();
    assert_eq!(workload(&plan, 1), 2);
    assert_eq!(asked_and_supplied(&plan, 1, 2), (4 + 2, 5));
    assert_eq!(asked_and_supplied(&plan, 1, 1), (2 + 2, 4));
    assert_eq!(verdict(&plan).1[1], 1);
    // And not only k = 1: plan B's kind 0 needs 2.
    assert_eq!(asked_and_supplied(&Plan::b(), 0, 1), (1 + 3 + 2, 4));
    assert_eq!(asked_and_supplied(&Plan::b(), 0, 2), (2 + 3 + 2, 8));
    assert_eq!(verdict(&Plan::b()).1[0], 2);
}

#[test]
fn the_cut_off_unit_is_in_w() {
    // By equation 5, floor(3/4)*2 is 0, and the cut-off unit adds min(2, 3) = 2; by equation 3, floor((3 + 2)/4)*2 is 2, and no
    // unit is carried in.
    let plan = Plan::of(1, 1, &[(1, 1)], &[(0, 10, 3, 2), (0, 4, 2, 2)]);
    assert_eq!(workload(&plan, 0), 2);
    assert_eq!(verdict(&plan).0, short_by_one(0));
    // Without it both kinds would fit (2 <= 3 and 2 <= 2); released together, kind 0 is late.
    let both = released(released(started(&plan, 0), 0, 2), 1, 2);
    let late = sliced(both, 3);
    assert_eq!(
        (late.slice, late.kinds[0].gone, late.kinds[0].left),
        (0, 3, 1)
    );
}

#[test]
fn the_kinds_own_work_is_not_in_w() {
    // Plan A's kind 0 is alone: W is 0; its own floor((8 + 0)/8)*6 + min(6, 0) would refuse it.
    let plan = Plan::a();
    assert_eq!(workload(&plan, 0), 0);
    assert_eq!(asked_and_supplied(&plan, 0, 1), (6, 6));
    assert_eq!(verdict(&plan).1[0], 1);
}

#[test]
fn the_layout_is_the_same_in_each_frame() {
    // A unit that straddles the seam: released after two slices, it is served in slices 2, 4, 5, 6, 8, 9 of all that run.
    let plan = Plan::a();
    let mut state = sliced(fresh(&plan).1, 2);
    state = released(state, 0, 6);
    let mut served = Vec::new();
    for count in 2..10u8 {
        assert_eq!(state.slice, count % 4);
        let mut row = [0; 2];
        let (answer, next) = slice(&state, &mut row);
        assert_eq!(answer, Answer::GOOD);
        if row.contains(&1) {
            served.push(count);
        }
        state = next;
    }
    assert_eq!(served, [2, 4, 5, 6, 8, 9]);
    assert_eq!((state.slice, state.kinds[0].left), (2, 0));

    // Rotated by one slice from frame to frame, four slices across a seam would hold only two of the three.
    let h = h(&plan, 0);
    let rotated = |count: usize| h[(count % 4 + 4 - count / 4 % 4) % 4];
    let least = (0..16).map(|a| (a..a + 4).map(rotated).sum::<u64>()).min();
    assert_eq!(least, Some(2));
    assert_eq!(supply(&plan, 0, 1, 4), 3);
}

#[test]
fn one_unit_never_gets_two_cards_in_a_slice() {
    // Plan A's project 1 holds both cards at slice 3; with one unit, one of them stays idle.
    let plan = Plan::a();
    assert_eq!(h(&plan, 1), [1, 1, 1, 2]);
    let state = released(sliced(fresh(&plan).1, 3), 1, 2);
    let mut row = [0xEE; 2];
    let (answer, next) = slice(&state, &mut row);
    assert_eq!(answer, Answer::GOOD);
    assert_eq!(row, [2, 0]);
    assert_eq!(next.kinds[1].left, 1);
}

#[test]
fn an_unused_card_stays_idle() {
    // "A project's unused card stays idle; nobody else gets it."
    let plan = Plan::a();
    let state = released(released(fresh(&plan).1, 1, 2), 2, 2);
    let mut row = [0xEE; 2];
    let (_, next) = slice(&state, &mut row);
    assert_eq!(row, [0, 2]);
    assert_eq!((next.kinds[1].left, next.kinds[2].left), (1, 2));
}
