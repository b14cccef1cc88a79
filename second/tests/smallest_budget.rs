//! "Tell me the smallest budget", document 02's request (i).

use second::layout::h_of_cells;
use second::supply::supply_and_slice;
use second::*;

fn refused(number: u64, place: u64, excess: u64) -> (Answer, u64) {
    // "at qF, h is constant", so the slice is 0.
    let answer = Answer {
        number,
        place,
        excess,
        slice: 0,
    };
    (answer, 0)
}

fn least(budget: u64) -> (Answer, u64) {
    (Answer::GOOD, budget)
}

#[test]
fn both_projects_of_plan_a() {
    // Project 0 has what it needs; project 1 was given one cell too many.
    assert_eq!(smallest_budget(&Plan::a(), 0), least(3));
    assert_eq!(smallest_budget(&Plan::a(), 1), least(4));
    assert_eq!(smallest_budget(&Plan::b(), 0), least(7));
}

#[test]
fn the_stored_open_budget_is_not_read() {
    for budget in [0, 1, 3, 5, 8, 9, 1024, 65535] {
        for (project, expected) in [(0, 3), (1, 4)] {
            let mut plan = Plan::a();
            plan.projects[project].budget = budget;
            assert_eq!(smallest_budget(&plan, project as u64), least(expected));
        }
    }
}

#[test]
fn a_project_with_no_kinds_needs_one_cell() {
    let plan = Plan::of(2, 4, &[(1, 4), (2, 0)], &[(0, 8, 8, 8)]);
    assert_eq!(smallest_budget(&plan, 1), least(1));
    assert_eq!(smallest_budget(&plan, 0), refused(4, 1, 0));
}

#[test]
fn all_its_cells_and_one_slice_too_many() {
    // C = D: each slice is needed, so each cell of q F.
    let mut plan = Plan::of(2, 4, &[(1, 1), (1, 1)], &[(0, 9, 9, 1), (1, 4, 4, 4)]);
    assert_eq!(smallest_budget(&plan, 1), least(4));
    // Beside another kind it fits at no budget: 4 + 1 against 4. The place is the plan's kind number.
    plan.n = 3;
    plan.kinds[2] = Kind {
        project: 1,
        separation: 4,
        deadline: 4,
        length: 1,
    };
    assert_eq!(smallest_budget(&plan, 1), refused(8, 1, 1));
    // The opening example of 000, P9, where all cells are held.
    let plan = Plan::of(2, 1, &[(2, 1)], &[(0, 3, 3, 2), (0, 6, 6, 4), (0, 6, 6, 3)]);
    assert_eq!(smallest_budget(&plan, 0), refused(8, 0, 2));
}

#[test]
fn others_are_not_judged() {
    // Kind 0 fits at no budget; project 1 is told its own all the same.
    let mut plan = Plan::a();
    plan.projects[0].budget = 1;
    plan.kinds[0].length = 8;
    assert_eq!(verdict(&plan).0.number, 8);
    assert_eq!(smallest_budget(&plan, 1), least(4));
}

#[test]
fn seven_by_one_cell() {
    let mut plan = Plan::a();
    plan.projects[0] = Project {
        ceiling: 2,
        budget: 4,
    };
    assert_eq!(smallest_budget(&plan, 1), least(4));
    plan.projects[0].budget = 5;
    assert_eq!(smallest_budget(&plan, 1), refused(7, 0, 0));
    // 8 comes before 7, also where the others alone sum too high.
    plan.projects[0].budget = 8;
    plan.kinds[1].length = 4;
    plan.kinds[1].separation = 5;
    plan.kinds[2].length = 8;
    assert_eq!(smallest_budget(&plan, 1).0.number, 8);
}

#[test]
fn the_order_of_the_numbers() {
    // Each is wrong beside all that are told after it.
    let wrong: [(u64, u64, fn(&mut Plan)); 6] = [
        (2, 0, |plan| plan.m = 9),
        (3, 0, |plan| plan.kinds[15].length = 1),
        (27, 0, |_| {}),
        (4, 1, |plan| plan.projects[1].ceiling = 0),
        (5, 1, |plan| plan.kinds[1].project = 2),
        (6, 2, |plan| plan.kinds[2].deadline = 9),
    ];
    for first in 0..wrong.len() {
        for second in first..wrong.len() {
            let mut plan = Plan::a();
            let mut project = 0;
            for (number, _, change) in [wrong[first], wrong[second]] {
                change(&mut plan);
                if number == 27 {
                    project = 2;
                }
            }
            plan.projects[0].budget = 9;
            let (number, place, _) = wrong[first];
            assert_eq!(smallest_budget(&plan, project), refused(number, place, 0));
        }
    }
    for project in [2, 3, 8, 255, 256, 1 << 32, u64::MAX] {
        assert_eq!(smallest_budget(&Plan::a(), project), refused(27, 0, 0));
    }
}

#[test]
fn four_skips_that_one_budget_and_no_ceiling() {
    for open in 0..2u64 {
        for place in 0..2 {
            for budget in [0, 9, 65535] {
                let mut plan = Plan::a();
                plan.projects[place].budget = budget;
                let number = smallest_budget(&plan, open).0.number;
                assert_eq!(number == 4, place as u64 != open, "{plan:?}");
            }
            for ceiling in [0, 3, 255] {
                let mut plan = Plan::a();
                plan.projects[place].ceiling = ceiling;
                assert_eq!(smallest_budget(&plan, open), refused(4, place as u64, 0));
            }
        }
    }
}

#[test]
fn moving_the_first_cell_never_alters_the_supply_and_more_cells_never_lower_it() {
    for frame in 1..=5u8 {
        for budget in 0..=11 {
            let supply_of = |held: &[u64], k, t| supply_and_slice(held, k, t).0;
            let at_0 = h_of_cells(frame, 0, budget);
            let more = h_of_cells(frame, 0, budget + 1);
            for k in 1..=3 {
                for t in 0..=11 {
                    let supply = supply_of(&at_0, k, t);
                    assert!(supply <= supply_of(&more, k, t));
                    for first in 1..=11 {
                        let moved = h_of_cells(frame, first, budget);
                        assert_eq!(supply_of(&moved, k, t), supply);
                    }
                }
            }
        }
    }
}

#[test]
fn alone_it_is_the_least_budget_that_the_verdict_admits() {
    let mut kinds = Vec::new();
    for t in 1..=4 {
        for d in 1..=t {
            for c in 1..=d {
                kinds.push((0, t, d, c));
            }
        }
    }
    for (q, frame) in [(1, 1), (1, 3), (2, 2), (2, 3), (3, 1)] {
        for &first in &kinds {
            for &other in &kinds {
                let plan = |b| Plan::of(q, frame, &[(q, b)], &[first, other]);
                let most = u16::from(q) * u16::from(frame);
                let expected = match (1..=most).find(|&b| verdict(&plan(b)).0.is_good()) {
                    Some(b) => least(u64::from(b)),
                    None => (verdict(&plan(most)).0, 0),
                };
                assert_eq!(smallest_budget(&plan(0), 0), expected);
            }
        }
    }
}
