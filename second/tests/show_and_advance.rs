//! "Let the card host see the row before the slice starts", document 02's request (iv).

use second::layout::{cards_held, cells};
use second::rack::{a_stored_sum_differs, in_form, ranked};
use second::*;

/// "the old call": document 01's slice, in one piece, on the state that it has now.
fn old_slice(state: &State, buffer: &mut [u8]) -> (Answer, State) {
    let order = check(&state.plan);
    if !order.is_good() {
        return (order, *state);
    }
    let m = usize::from(state.plan.m);
    let refused = match () {
        _ if !in_form(state) => 10,
        _ if a_stored_sum_differs(state) => 16,
        _ if buffer.len() < m => 9,
        _ => 0,
    };
    if refused != 0 {
        return (Answer::refused(refused), *state);
    }
    let mut next = *state;
    buffer[..m].fill(0);
    let now = u64::from(state.slice);
    for project in 0..usize::from(state.plan.p) {
        let cards = cards_held(&cells(&state.plan), project, now);
        for (card, i) in cards.into_iter().zip(ranked(state, project)) {
            buffer[card as usize] = i as u8 + 1;
            next.kinds[i].left -= 1;
        }
    }
    for (i, kind) in state.plan.used_kinds().iter().enumerate() {
        let place = &mut next.kinds[i];
        place.gone = (place.gone + u16::from(place.released)).min(kind.separation);
    }
    next.slice = match state.slice + 1 {
        after if after == state.plan.frame => 0,
        after => after,
    };
    (Answer::GOOD, next.summed())
}

/// States of plan A that runs come to, and the same out of form, with a sum that differs, and on a plan out of order.
fn states() -> Vec<State> {
    let mut states = vec![fresh(&Plan::a()).1];
    for at in 0..40u64 {
        let state = states[at as usize];
        states.push(match at % 5 {
            3 => release(&state, at % 3, 1 + at % 2).1,
            _ => advance(&state).1,
        });
    }
    for state in states.clone() {
        let mut spoilt = state;
        spoilt.kinds[5].left = 1;
        states.push(spoilt);
        let mut differs = state;
        differs.sums[0] += 1;
        states.push(differs);
        spoilt.plan.projects[1].budget = 6;
        states.push(spoilt);
    }
    states
}

#[test]
fn an_accepted_showing_then_advancing_equals_the_old_call() {
    let mut accepted = 0;
    for state in states() {
        for room in 0..4 {
            for stood in [0, 0xEE] {
                let (mut row, mut old) = (vec![stood; room], vec![stood; room]);
                let shown = show(&state, &mut row);
                let (answer, next) = old_slice(&state, &mut old);
                assert_eq!((shown, row), (answer, old));
                let (advanced, after) = advance(&state);
                match shown.number {
                    0 => assert_eq!((advanced, after), (answer, next)),
                    // "advancing drops 9".
                    9 => assert_eq!(advanced, Answer::GOOD),
                    _ => assert_eq!((advanced, after), (shown, state)),
                }
                accepted += u64::from(shown.is_good());
            }
        }
    }
    assert!(accepted > 100);
}

#[test]
fn showing_twice_gives_the_same_row_whatever_stood_there() {
    for state in states() {
        let (mut first, mut again) = ([0; 2], [0xEE; 2]);
        let shown = show(&state, &mut first);
        assert_eq!(show(&state, &mut again), shown);
        assert!(!shown.is_good() || first == again);
    }
}

#[test]
fn a_release_may_fall_between() {
    let (_, state) = fresh(&Plan::a());
    let mut row = [0xEE; 2];
    assert_eq!((show(&state, &mut row), row), (Answer::GOOD, [0, 0]));
    let (_, state) = release(&state, 0, 6);
    // The host shows again, or does not: what is advanced is the state as it is.
    assert_eq!((show(&state, &mut row), row), (Answer::GOOD, [1, 0]));
    let (_, state) = release(&state, 1, 2);
    assert_eq!(
        advance(&state).1.kinds.map(|kind| kind.left)[..3],
        [5, 1, 0]
    );
}

#[test]
fn advancing_may_succeed_where_showing_gave_9() {
    let (_, state) = release(&fresh(&Plan::a()).1, 0, 6);
    let mut row = [0xEE; 1];
    assert_eq!((show(&state, &mut row), row), (Answer::refused(9), [0xEE]));
    let (answer, next) = advance(&state);
    assert_eq!(answer, Answer::GOOD);
    assert_eq!((next.slice, next.kinds[0].left), (1, 5));
}
