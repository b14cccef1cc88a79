//! "The clock must not run out", document 02's request (ix): the rules beside the old ones.

use second::absolute_clock::{self, LAST_CLOCK};
use second::bytes::pack;
use second::*;

/// The old state and the new: the slice is the clock within the frame, what is gone the lesser of T and the clock less the release
/// clock; all else is the same.
fn beside(old: &absolute_clock::State, new: &State) {
    assert_eq!(old.plan, new.plan);
    assert_eq!(u32::from(new.slice), old.clock % u32::from(old.plan.frame));
    for (i, (before, after)) in old.kinds.iter().zip(&new.kinds).enumerate() {
        let t = u32::from(old.plan.kinds[i].separation);
        let gone = match before.released {
            true => (old.clock - before.at).min(t),
            false => 0,
        };
        assert_eq!(u32::from(after.gone), gone, "kind {i}");
        assert_eq!(
            (after.released, after.left),
            (before.released, before.left),
            "kind {i}"
        );
    }
    assert_eq!(old.sums, new.sums);
}

/// Plan A, and one with separations to the end of their range and deadlines below them.
fn plans() -> [Plan; 2] {
    let kinds = [
        (0, 4095, 4000, 30),
        (0, 4095, 4095, 40),
        (0, 100, 90, 9),
        (1, 7, 7, 1),
    ];
    [Plan::a(), Plan::of(2, 5, &[(2, 6), (1, 3)], &kinds)]
}

/// Plays releases and slices on both sides, from the old state and the new one beside it, and holds each call's answer and each
/// row to the other's, until so many slices are run or the old clock ends; whether it ended.
fn play_beside(mut old: absolute_clock::State, mut new: State, slices: u64) -> bool {
    beside(&old, &new);
    let n = u64::from(new.plan.n);
    for count in 0..slices {
        // Each kind at some time: when it may, one slice before, and at other times.
        for kind in 0..=n {
            let place = new.kinds[kind as usize % 16];
            let of_plan = new.plan.kinds[kind as usize % 16];
            let soon =
                place.gone + 1 >= of_plan.separation || (count + 3 * kind).is_multiple_of(11);
            if !soon && place.released {
                continue;
            }
            let e = (count + kind) % (u64::from(of_plan.length) + 2);
            let (told, after) = release(&new, kind, e);
            let (before, old_after) = absolute_clock::release(&old, kind, e);
            assert_eq!(told, before, "a release of kind {kind} with {e}");
            (new, old) = (after, old_after);
            beside(&old, &new);
        }
        for room in [0, new.plan.m] {
            let (mut row, mut old_row) = (vec![0xEE; room.into()], vec![0xEE; room.into()]);
            let told = show(&new, &mut row);
            let before = absolute_clock::show(&old, &mut old_row);
            if before.number == 11 {
                assert_eq!(told, Answer::GOOD);
                continue;
            }
            assert_eq!((told, row), (before, old_row));
        }
        let (told, after) = advance(&new);
        let (before, old_after) = absolute_clock::advance(&old);
        if before.number == 11 {
            // The old clock has ended; the new one goes on.
            assert_eq!((old.clock, told), (LAST_CLOCK, Answer::GOOD));
            return true;
        }
        assert_eq!(told, before);
        (new, old) = (after, old_after);
        beside(&old, &new);
    }
    false
}

#[test]
fn rows_and_refusals_equal_the_old_ones() {
    for plan in plans() {
        let (answer, new) = fresh(&plan);
        let (before, old) = absolute_clock::fresh(&plan);
        assert_eq!((answer, before), (Answer::GOOD, Answer::GOOD));
        assert!(!play_beside(old, new, 13_000));
    }
}

#[test]
fn wherever_the_old_clock_had_not_ended() {
    for plan in plans() {
        for run in [0, 3, 4094, 4095, 4097] {
            // A state that a run comes to, as if so many whole frames had gone before it.
            let (_, mut new) = fresh(&plan);
            let (_, mut old) = absolute_clock::fresh(&plan);
            for kind in 0..u64::from(plan.n) - 1 {
                (_, new) = release(&new, kind, 1);
                (_, old) = absolute_clock::release(&old, kind, 1);
            }
            for _ in 0..run {
                (_, new) = advance(&new);
                (_, old) = absolute_clock::advance(&old);
            }
            let frame = u32::from(plan.frame);
            let more = (LAST_CLOCK - 300 - old.clock) / frame * frame;
            old.clock += more;
            for place in old.kinds.iter_mut().filter(|place| place.released) {
                place.at += more;
            }
            assert!(play_beside(old, new, 400));
        }
    }
}

#[test]
fn the_old_rules_still_say_11_and_15() {
    let mut state = absolute_clock::State {
        plan: Plan::a(),
        clock: LAST_CLOCK,
        ..Default::default()
    };
    let ended = Answer::refused(11);
    assert_eq!(absolute_clock::show(&state, &mut [0]), Answer::refused(9));
    assert_eq!(absolute_clock::show(&state, &mut [0, 0]), ended);
    assert_eq!(absolute_clock::advance(&state), (ended, state));
    // A release at the last clock is good.
    assert_eq!(absolute_clock::release(&state, 0, 1).0, Answer::GOOD);
    state.kinds[0] = absolute_clock::KindState {
        released: true,
        at: LAST_CLOCK - 7,
        left: 1,
    };
    state = state.summed();
    let told = |state: &absolute_clock::State| absolute_clock::release(state, 0, 6).0.number;
    assert_eq!(told(&state), 14);
    state.kinds[0].at -= 1;
    assert_eq!(told(&state), 15);
    state.clock += 1;
    assert_eq!(told(&state), 10);
}

#[test]
fn the_player_prints_the_slice_where_the_old_one_prints_the_clock() {
    let input = [pack(&Plan::a()), [0; 3].repeat(6)].concat();
    let (mut new, mut old) = (Vec::new(), Vec::new());
    play(&input[..], &mut new);
    play_by_absolute_clock(&input[..], &mut old);
    let lines = |clocks: [u64; 7]| {
        let slices: String = clocks[..6]
            .iter()
            .map(|at| format!("t {at}: 0 0\n"))
            .collect();
        format!("plan ok\n{slices}end {}\n", clocks[6])
    };
    assert_eq!(
        String::from_utf8(new).unwrap(),
        lines([0, 1, 2, 3, 0, 1, 2])
    );
    assert_eq!(
        String::from_utf8(old).unwrap(),
        lines([0, 1, 2, 3, 4, 5, 6])
    );
}
