//! "The test is sufficient and not necessary. A refused plan may run well; it is refused all the same."

use second::*;
use std::collections::HashSet;

/// What later slices depend on, in a frame of one slice: for each kind what is left, and how long ago it was released, at most T.
fn outlook(state: &State) -> Vec<(u16, u16)> {
    let kinds = state.plan.n as usize;
    (0..kinds)
        .map(|i| {
            let (unit, separation) = (state.kinds[i], state.plan.kinds[i].separation);
            let ago = if unit.released { unit.gone } else { separation };
            (unit.left, ago)
        })
        .collect()
}

#[test]
fn a_refused_plan_that_no_order_of_releases_makes_late() {
    let plan = Plan::of(1, 1, &[(1, 1)], &[(0, 2, 1, 1), (0, 2, 2, 1)]);
    assert_eq!(verdict(&plan).0, Answer::not_admitted(0, 1, 0));

    let start = State {
        plan,
        ..State::default()
    };
    let (mut seen, mut open) = (HashSet::from([outlook(&start)]), vec![start]);
    while let Some(state) = open.pop() {
        for chosen in 0..4u64 {
            let mut next = state;
            for kind in (0..2).filter(|kind| chosen >> kind & 1 == 1) {
                next = release(&next, kind, 1).1;
            }
            let (answer, next) = slice(&next, &mut [0; 8]);
            assert_eq!(answer, Answer::GOOD);
            for i in 0..2 {
                let (unit, deadline) = (next.kinds[i], plan.kinds[i].deadline);
                let due = unit.released && unit.gone >= deadline;
                assert!(!due || unit.left == 0, "kind {i} is late");
            }
            if seen.insert(outlook(&next)) {
                open.push(next);
            }
        }
    }
    // Neither under way; one of them; both released at once, of which kind 1 waits.
    assert_eq!(seen.len(), 4);
}
