//! The orders of the numbers.

use second::rack::in_form;
use second::*;

fn refused(number: u64, place: u64) -> Answer {
    Answer {
        number,
        place,
        ..Answer::GOOD
    }
}

/// Plan A with one thing wrong for each number from 2 to 7 that a record can have wrong.
fn wrong(number: u64, plan: &mut Plan) {
    match number {
        2 => plan.m = 9,
        3 => plan.kinds[15].length = 1,
        4 => plan.projects[1].ceiling = 0,
        5 => plan.kinds[1].project = 2,
        6 => plan.kinds[2].deadline = 9,
        7 => {
            plan.projects[1] = Project {
                ceiling: 2,
                budget: 6,
            }
        }
        _ => {}
    }
}

#[test]
fn the_record_order() {
    let places = [0, 0, 0, 0, 1, 1, 2, 0];
    for first in 2..=7u64 {
        for second in first..=7 {
            // 4 and 7 both change project 1's record.
            if (first, second) == (4, 7) {
                continue;
            }
            let mut plan = Plan::a();
            wrong(second, &mut plan);
            wrong(first, &mut plan);
            let answer = refused(first, places[first as usize]);
            let state = State {
                plan,
                slice: 255,
                ..State::default()
            };
            assert_eq!(check(&plan), answer);
            assert_eq!(verdict(&plan), (answer, [0; 16], [0; 16]));
            assert_eq!(fresh(&plan), (answer, State::default()));
            assert_eq!(write(&plan, &mut []), (answer, 0));
            assert_eq!(slot_table(&plan, &mut []), (answer, 0));
            assert_eq!(release(&state, 99, 0), (answer, state));
            assert_eq!(show(&state, &mut []), answer);
            assert_eq!(advance(&state), (answer, state));
        }
    }
}

#[test]
fn five_or_six_comes_by_the_earlier_kind() {
    let mut plan = Plan::a();
    plan.kinds[0].length = 0;
    plan.kinds[1].project = 7;
    assert_eq!(check(&plan), refused(6, 0));
    plan.kinds[0].project = 7;
    assert_eq!(check(&plan), refused(5, 0));
}

#[test]
fn only_a_record_can_say_it() {
    let mut plan = Plan::a();
    plan.kinds[0].separation = 4096;
    assert_eq!(check(&plan), refused(6, 0));
    plan.kinds[0].separation = 4095;
    assert_eq!(check(&plan), Answer::GOOD);
    plan.kinds[0].project = 255;
    assert_eq!(check(&plan), refused(5, 0));
    for change in [
        |plan: &mut Plan| plan.projects[2].ceiling = 1,
        |plan: &mut Plan| plan.projects[7].budget = 65535,
        |plan: &mut Plan| plan.kinds[3].project = 1,
        |plan: &mut Plan| plan.kinds[9].separation = 1,
        |plan: &mut Plan| plan.kinds[9].deadline = 1,
        |plan: &mut Plan| plan.kinds[15].length = 1,
    ] {
        let mut plan = Plan::a();
        change(&mut plan);
        assert_eq!(check(&plan), refused(3, 0));
    }
}

#[test]
fn show_order_10_16_9_advance_order_10_16_and_no_8() {
    let plan = Plan::a();
    let mut state = State {
        plan,
        slice: 4,
        ..State::default()
    };
    assert_eq!(show(&state, &mut [0]), refused(10, 0));
    assert_eq!(advance(&state), (refused(10, 0), state));
    // A sum that differs: 10 is told before it, 9 after it.
    state.sums[1] = 1;
    assert_eq!(show(&state, &mut [0]), refused(10, 0));
    assert_eq!(advance(&state), (refused(10, 0), state));
    state.slice = 3;
    assert_eq!(show(&state, &mut [0]), refused(16, 0));
    assert_eq!(advance(&state), (refused(16, 0), state));
    state.sums[1] = 0;
    assert_eq!(show(&state, &mut [0]), refused(9, 0));
    assert_eq!(show(&state, &mut [0, 0]), Answer::GOOD);
    // "the slice within the frame": behind the last one comes the first.
    assert_eq!(advance(&state).1.slice, 0);
    state.plan.kinds[0].length = 8;
    assert_eq!(verdict(&state.plan).0.number, 8);
    assert_eq!(show(&state, &mut [0, 0]), Answer::GOOD);
    assert_eq!(advance(&state).0, Answer::GOOD);
}

#[test]
fn release_order_10_16_12_13_14() {
    let plan = Plan::a();
    let mut state = State {
        plan,
        slice: 1,
        ..State::default()
    };
    state.kinds[0] = KindState {
        released: true,
        gone: 7,
        left: 1,
    };
    state.kinds[3].left = 1;
    assert_eq!(release(&state, 3, 0).0, refused(10, 0));
    state.kinds[3].left = 0;
    assert_eq!(release(&state, 3, 0).0, refused(16, 0));
    assert_eq!(release(&state, 0, 6).0, refused(16, 0));
    state.sums[0] = 1;
    assert_eq!(release(&state, 3, 0).0, refused(12, 0));
    assert_eq!(release(&state, 1 << 32, 1).0, refused(12, 0));
    assert_eq!(release(&state, 0, 0).0, refused(13, 0));
    assert_eq!(release(&state, 0, 7).0, refused(13, 0));
    assert_eq!(release(&state, 0, (1 << 32) + 1).0, refused(13, 0));
    assert_eq!(release(&state, 0, 6).0, refused(14, 0));
    // Where the old rules said 15, with work left T slices after the release, a state is no longer in form.
    state.kinds[0].gone = 8;
    assert_eq!(release(&state, 0, 6).0, refused(10, 0));
    state.kinds[0].left = 0;
    assert_eq!(release(&state, 0, 6).0, refused(16, 0));
    state.sums[0] = 0;
    assert_eq!(release(&state, 0, 6).0, Answer::GOOD);
    state.kinds[0].gone = 7;
    assert_eq!(release(&state, 0, 6).0, refused(14, 0));
}

#[test]
fn fifteen_can_never_occur() {
    // "Show that 15 can then never occur": every unit of a small kind in form and with work left is refused by 14.
    let mut seen = 0;
    for t in 1..=6u16 {
        for d in 1..=t {
            for c in 1..=d {
                for gone in 0..=t + 1 {
                    for left in 0..=c + 1 {
                        let mut state = State {
                            plan: Plan::of(1, 1, &[(1, 1)], &[(0, t, d, c)]),
                            ..State::default()
                        };
                        state.kinds[0] = KindState {
                            released: true,
                            gone,
                            left,
                        };
                        let state = state.summed();
                        let told = release(&state, 0, 1).0.number;
                        let expected = match in_form(&state) {
                            false => 10,
                            true if gone < t => 14,
                            true => 0,
                        };
                        assert_eq!(told, expected, "{state:?}");
                        if left > 0 && in_form(&state) {
                            assert_eq!(told, 14);
                            seen += 1;
                        }
                    }
                }
            }
        }
    }
    assert!(seen > 200);
}

#[test]
fn the_form_of_a_state() {
    // Plan A with a deadline below its separation: (0,8,7,6).
    let mut plan = Plan::a();
    plan.kinds[0].deadline = 7;
    let good = State {
        plan,
        slice: 3,
        ..State::default()
    };
    let released = |gone, left| KindState {
        released: true,
        gone,
        left,
    };
    let never = |gone, left| KindState {
        released: false,
        gone,
        left,
    };
    for (place, kind_state, is_in_form) in [
        (0, never(0, 0), true),
        (0, never(1, 0), false),
        (0, never(8, 0), false),
        (0, never(0, 1), false),
        (0, released(0, 0), true),
        (0, released(0, 6), true),
        (0, released(0, 7), false),
        // "at most T".
        (0, released(8, 0), true),
        (0, released(9, 0), false),
        // "and below D where work is left".
        (0, released(6, 1), true),
        (0, released(7, 1), false),
        (0, released(8, 1), false),
        (0, released(7, 0), true),
        (3, released(0, 0), false),
        (3, never(1, 0), false),
        (15, never(0, 1), false),
        (15, never(0, 0), true),
    ] {
        let mut state = good;
        state.kinds[place] = kind_state;
        assert_eq!(in_form(&state), is_in_form, "{place} {kind_state:?}");
    }
    // "the slice is below F".
    for (slice, is_in_form) in [(0, true), (3, true), (4, false), (255, false)] {
        assert_eq!(in_form(&State { slice, ..good }), is_in_form, "{slice}");
    }
    // "A sum beyond p that is not zero is 10"; one below p may be any.
    for place in 0..8 {
        let mut state = good;
        state.sums[place] = 1;
        assert_eq!(in_form(&state), place < 2, "sum {place}");
    }
}

#[test]
fn ranked_by_slices_left_until_the_deadline_then_by_lower_kind_number() {
    let plan = Plan::of(
        3,
        1,
        &[(3, 2)],
        &[(0, 20, 9, 2), (0, 20, 5, 2), (0, 20, 7, 2), (0, 20, 8, 2)],
    );
    let mut state = State {
        plan,
        ..State::default()
    };
    let released = |gone| KindState {
        released: true,
        gone,
        left: 1,
    };
    // 4, 4, 4 and 3 slices until the deadline; two cards, the third is free.
    state.kinds[..4].copy_from_slice(&[released(5), released(1), released(3), released(5)]);
    state.sums[0] = 4;
    let mut row = [0xEE; 4];
    let (answer, next) = slice(&state, &mut row);
    assert_eq!(answer, Answer::GOOD);
    assert_eq!(row, [4, 1, 0, 0xEE]);
    assert_eq!(next.kinds.map(|place| place.left)[..4], [0, 1, 1, 0]);
    assert_eq!(next.kinds.map(|place| place.gone)[..5], [6, 2, 4, 6, 0]);
    let (_, next) = slice(&next, &mut row);
    assert_eq!(row, [2, 3, 0, 0xEE]);
    slice(&next, &mut row);
    assert_eq!(row, [0, 0, 0, 0xEE]);
}

#[test]
fn from_a_plan_that_is_not_admitted_an_advance_may_leave_the_form() {
    // Two units that both want the one card now: the second one is late, and the next call says so.
    let plan = Plan::of(1, 1, &[(1, 1)], &[(0, 2, 1, 1), (0, 2, 1, 1)]);
    assert_eq!(verdict(&plan).0.number, 8);
    let mut state = State {
        plan,
        ..State::default()
    };
    for kind in 0..2 {
        let (answer, next) = release(&state, kind, 1);
        assert_eq!(answer, Answer::GOOD);
        state = next;
    }
    let (answer, late) = advance(&state);
    assert_eq!(answer, Answer::GOOD);
    assert_eq!((late.kinds[1].gone, late.kinds[1].left), (1, 1));
    assert!(!in_form(&late));
    assert_eq!(advance(&late), (refused(10, 0), late));
    assert_eq!(show(&late, &mut [0]), refused(10, 0));
    assert_eq!(release(&late, 0, 1), (refused(10, 0), late));
}
