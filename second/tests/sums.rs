//! "Keep the row of sums", document 02's request (vii).

use second::rack::{a_stored_sum_differs, in_form, sum_of_what_is_left};
use second::*;

/// What each of the three calls answers; a refused one must leave what it was given.
fn told(state: &State) -> [u64; 3] {
    let (released, after) = release(state, 0, 1);
    assert!(released.is_good() || after == *state);
    let mut row = [0xEE; 8];
    let shown = show(state, &mut row);
    assert!(shown.is_good() || row == [0xEE; 8]);
    let (advanced, after) = advance(state);
    assert!(advanced.is_good() || after == *state);
    [released.number, shown.number, advanced.number]
}

/// A plan of three projects, the last without kinds.
fn plan() -> Plan {
    let kinds = [(1, 9, 9, 3), (0, 6, 6, 2), (1, 12, 10, 4), (1, 20, 20, 2)];
    Plan::of(3, 4, &[(1, 3), (2, 6), (1, 2)], &kinds)
}

/// A run from the fresh start, some of its releases refused: every state on the way.
fn run() -> Vec<State> {
    let (answer, fresh) = fresh(&plan());
    assert_eq!(answer, Answer::GOOD);
    let mut states = vec![fresh];
    for step in 0..200u64 {
        let state = states[step as usize];
        states.push(match step % 7 {
            kind @ 0..5 => release(&state, kind, 1 + (step + kind) % 4).1,
            _ => advance(&state).1,
        });
    }
    states
}

#[test]
fn the_stored_row_equals_the_sum_of_what_is_left() {
    let (mut most, mut moved) = (0, 0);
    for state in run() {
        assert!(in_form(&state) && !a_stored_sum_differs(&state));
        assert_eq!(state.summed(), state);
        for project in 0..8 {
            let left = sum_of_what_is_left(&state, project);
            assert_eq!(u64::from(state.sums[project]), left);
            most = left.max(most);
            moved += u64::from(left > 0);
        }
    }
    // Kinds of one project add up, and more than one project has some.
    assert!(most > 4 && moved > 100);
}

#[test]
fn raised_by_a_release_and_lowered_by_an_advance() {
    let (_, state) = fresh(&plan());
    assert_eq!(state.sums, [0; 8]);
    // "raised" by e, not by C.
    let (_, state) = release(&state, 2, 3);
    assert_eq!(state.sums, [0, 3, 0, 0, 0, 0, 0, 0]);
    let (_, state) = release(&state, 0, 3);
    assert_eq!(state.sums, [0, 6, 0, 0, 0, 0, 0, 0]);
    let (_, state) = release(&state, 1, 2);
    assert_eq!(state.sums, [2, 6, 0, 0, 0, 0, 0, 0]);
    // Refused: nothing is raised.
    assert_eq!(release(&state, 1, 2), (Answer::refused(14), state));
    // Project 0 holds a card at the first three slices; project 1 two, one, one and two. Kind 0 is done after three slices, so that
    // in the fourth kind 2 alone has work, and one is taken away for two cards held.
    let mut held = Vec::new();
    let mut next = state;
    for _ in 0..6 {
        next = advance(&next).1;
        held.push((next.sums[0], next.sums[1]));
    }
    assert_eq!(held, [(1, 4), (0, 3), (0, 2), (0, 1), (0, 0), (0, 0)]);
    assert_eq!(next.sums, [0; 8]);
}

#[test]
fn a_flip_in_a_sum_or_in_any_slices_left_is_told_by_the_next_call() {
    let mut numbers = [0; 17];
    for state in run() {
        for bit in 0..16 {
            for place in 0..8 {
                let mut flipped = state;
                flipped.sums[place] ^= 1 << bit;
                let expected = if place < 3 { 16 } else { 10 };
                assert_eq!(told(&flipped), [expected; 3], "sum {place}, bit {bit}");
                numbers[expected as usize] += 1;
            }
            for place in 0..16 {
                let mut flipped = state;
                flipped.kinds[place].left ^= 1 << bit;
                let unit = flipped.kinds[place];
                let kind = plan().kinds[place];
                // Work left where D slices are gone is out of form as well.
                let late = unit.left > 0 && unit.gone >= kind.deadline;
                let expected = match unit.released && unit.left <= kind.length && !late {
                    true => 16,
                    false => 10,
                };
                assert_eq!(told(&flipped), [expected; 3], "left {place}, bit {bit}");
                numbers[expected as usize] += 1;
            }
        }
    }
    assert_eq!(numbers[10] + numbers[16], 201 * 24 * 16);
    assert!(numbers[16] > 10_000);
}

#[test]
fn a_flip_is_told_before_9_and_12_to_14() {
    let mut state = State {
        plan: plan(),
        slice: 3,
        ..State::default()
    };
    state.sums[2] = 1;
    assert_eq!(told(&state), [16; 3]);
    assert_eq!(show(&state, &mut []), Answer::refused(16));
    for (kind, e) in [(4, 1), (0, 0), (0, 4), (1 << 32, 0)] {
        assert_eq!(release(&state, kind, e), (Answer::refused(16), state));
    }
    // And after the plan's own.
    state.plan.kinds[2].project = 3;
    assert_eq!(told(&state), [5; 3]);
}

#[test]
fn two_flips_may_agree() {
    // One less in a sum and one less left: no call can know.
    let (_, state) = release(&fresh(&plan()).1, 0, 3);
    let mut flipped = state;
    flipped.kinds[0].left ^= 1;
    flipped.sums[1] ^= 1;
    assert_eq!(flipped.sums[1], 2);
    assert_eq!(show(&flipped, &mut [0; 3]), Answer::GOOD);
}

#[test]
fn the_greatest_sum() {
    // Sixteen kinds of the greatest length: 16 times 4095 still has its place.
    let plan = Plan::of(1, 1, &[(1, 1)], &[(0, 4095, 4095, 4095); 16]);
    let mut state = State {
        plan,
        ..State::default()
    };
    for kind in 0..16 {
        let (answer, next) = release(&state, kind, 4095);
        assert_eq!(answer, Answer::GOOD);
        state = next;
    }
    assert_eq!(state.sums[0], 65520);
    assert_eq!(advance(&state).1.sums[0], 65519);
}
