//! "Show which slice is the bad one to arrive in", document 02's request (ii).

use second::layout::h;
use second::supply::supply_and_slice;
use second::*;

/// What a unit that arrives in slice a sees: the sum over x = 0..t-1 of min(k, h(a+x)).
fn seen(held: &[u64], k: u64, a: usize, t: usize) -> u64 {
    (a..a + t).map(|s| held[s % held.len()].min(k)).sum()
}

#[test]
fn the_earliest_slice_that_attains_the_supply() {
    // Project 0 of plan A holds 1 1 1 0, project 1 holds 1 1 1 2.
    let held = [0, 1].map(|project| h(&Plan::a(), project));
    let figures =
        |project: usize, k| [0, 1, 2, 3, 4, 5].map(|t| supply_and_slice(&held[project], k, t));
    assert_eq!(
        figures(0, 1),
        [(0, 0), (0, 3), (1, 2), (2, 1), (3, 0), (3, 3)]
    );
    assert_eq!(
        figures(1, 1),
        [(0, 0), (1, 0), (2, 0), (3, 0), (4, 0), (5, 0)]
    );
    assert_eq!(
        figures(1, 2),
        [(0, 0), (1, 0), (2, 0), (3, 0), (5, 0), (6, 0)]
    );
}

#[test]
fn every_earlier_start_sees_more_and_every_start_as_much() {
    for frame in 1..=4u8 {
        for first in 0..4 {
            for budget in 1..=2 * u64::from(frame) {
                let held = layout::h_of_cells(frame, first, budget);
                for (k, t) in [
                    (1, 0),
                    (1, 1),
                    (1, 3),
                    (1, 6),
                    (2, 1),
                    (2, 2),
                    (2, 5),
                    (3, 7),
                ] {
                    let (supply, slice) = supply_and_slice(&held, k, t as u64);
                    assert!(slice < u64::from(frame));
                    for a in 0..usize::from(frame) {
                        let seen = seen(&held, k, a, t);
                        assert!(seen >= supply && (a as u64 >= slice || seen > supply));
                        assert!(a as u64 != slice || seen == supply);
                    }
                    assert!(t > 0 || slice == 0);
                }
            }
        }
    }
}

#[test]
fn a_first_cell_that_moves_leaves_the_supply_and_may_change_the_slice() {
    // The same project, once from cell 0 and once behind another.
    let alone = Plan::of(1, 4, &[(1, 2)], &[(0, 8, 5, 1)]);
    let behind = Plan::of(1, 4, &[(1, 1), (1, 2)], &[(1, 8, 5, 1)]);
    let slice = |plan: &Plan| verdict(plan).2[0];
    assert_eq!(verdict(&alone).0, Answer::GOOD);
    assert_eq!(verdict(&behind).0, Answer::GOOD);
    // It holds 1 1 0 0, or 0 1 1 0: five slices give 2 at the worst, from slice 2, or from slice 0.
    assert_eq!((slice(&alone), slice(&behind)), (2, 0));
}

#[test]
fn the_slice_of_the_least_k_that_allows_the_length() {
    // A kind of length c beside others of these lengths, each of which counts whole.
    let plan = |c, others: &[u16]| {
        let mut kinds = vec![(1, 9, 5, c)];
        kinds.extend(others.iter().map(|&other| (1, 9, 9, other)));
        Plan::of(3, 4, &[(1, 3), (2, 6)], &kinds)
    };
    let held = h(&plan(2, &[]), 1);
    assert_eq!(held, [2, 1, 1, 2]);
    assert_eq!(supply_and_slice(&held, 1, 5), (5, 0));
    assert_eq!(supply_and_slice(&held, 2, 5), (7, 1));
    // W 3: either k allows 2, and no more.
    assert_eq!(verdict(&plan(3, &[3])).0, Answer::not_admitted(0, 1, 0));
    // W 5: k 1 allows 0, k 2 allows 1.
    assert_eq!(verdict(&plan(2, &[5])).0, Answer::not_admitted(0, 1, 1));
    // W 7: 0 at k 2 alone. W 8: none at all, and no slice.
    assert_eq!(verdict(&plan(4, &[5, 2])).0, Answer::not_admitted(0, 4, 1));
    assert_eq!(verdict(&plan(4, &[5, 3])).0, Answer::not_admitted(0, 4, 0));
}

#[test]
fn no_slice_beside_a_k_of_0() {
    let mut plan = Plan::a();
    plan.kinds[0] = Kind {
        project: 0,
        separation: 4,
        deadline: 3,
        length: 2,
    };
    assert_eq!(verdict(&plan).2[..4], [1, 0, 0, 0]);
    let (mut wide, mut long) = (plan, plan);
    wide.projects[1].budget = 6;
    long.kinds[2].length = 8;
    for (plan, number) in [(wide, 7), (long, 8)] {
        let (answer, k, slices) = verdict(&plan);
        assert_eq!((answer.number, k, slices), (number, [0; 16], [0; 16]));
    }
}
