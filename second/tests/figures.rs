//! The figures of a kind: P3 and P4 by it, that it is told of every plan in order, and that it is what the verdict goes by.

use second::verdict::asked_and_supplied;
use second::{figures, verdict, Figures, Plan};

/// Plan A with another deadline, and the length 1, for a kind.
fn due(kind: usize, deadline: u16) -> Plan {
    let mut plan = Plan::a();
    plan.kinds[kind].deadline = deadline;
    plan.kinds[kind].length = 1;
    plan
}

#[test]
fn p3_and_p4() {
    for (deadline, supply, slice) in [(1, 0, 3), (3, 2, 1), (4, 3, 0), (8, 6, 0)] {
        let (answer, told) = figures(&due(0, deadline), 0);
        assert!(answer.is_good());
        assert_eq!((told.widths, told.workload), (1, 0));
        assert_eq!((told.supply[0], told.slice[0]), (supply, slice));
        assert_eq!([&told.supply[1..], &told.slice[1..]], [&[0; 7], &[0; 7]]);
    }
    for (deadline, supply) in [(4, [4, 5]), (1, [1, 1]), (3, [3, 3])] {
        let (_, told) = figures(&due(1, deadline), 1);
        assert_eq!(
            (told.widths, told.supply[..2].to_vec()),
            (2, supply.to_vec())
        );
    }
}

#[test]
fn a_plan_that_is_not_admitted_is_told_of() {
    let mut plan = Plan::a();
    plan.kinds[0].length = 7;
    assert_eq!(verdict(&plan).0.number, 8);
    let (answer, told) = figures(&plan, 0);
    assert!(answer.is_good());
    assert_eq!((told.workload, told.supply[0]), (0, 6));
}

#[test]
fn refusals_in_order() {
    let mut plan = Plan::a();
    for kind in [3, 16, 256, 1 << 32, u64::MAX] {
        assert_eq!(figures(&plan, kind).0.number, 12);
        assert_eq!(figures(&plan, kind).1, Figures::default());
    }
    plan.projects[1].budget = 6;
    assert_eq!(figures(&plan, 3).0.number, 7);
}

#[test]
fn the_verdict_goes_by_them() {
    for plan in [Plan::a(), Plan::b()] {
        let (_, ks, slices) = verdict(&plan);
        for i in 0..usize::from(plan.n) {
            let (_, told) = figures(&plan, i as u64);
            let c = u64::from(plan.kinds[i].length);
            let fits = |k: &u64| k * c + told.workload <= told.supply[*k as usize - 1];
            let k = (1..=told.widths).find(fits).unwrap();
            assert_eq!(u64::from(ks[i]), k);
            assert_eq!(u64::from(slices[i]), told.slice[k as usize - 1]);
            let sides = (k * c + told.workload, told.supply[k as usize - 1]);
            assert_eq!(asked_and_supplied(&plan, i, k), sides);
        }
    }
}
