//! "The excess is wrong advice", document 02's request (iii).

use second::*;

/// The plan with another length for one kind.
fn with_length(plan: &Plan, i: usize, length: u16) -> Plan {
    let mut plan = *plan;
    plan.kinds[i].length = length;
    plan
}

#[test]
fn plan_b_with_kind_0_of_length_3() {
    // "We report an excess of 3, yet length 1 fits, so the unit was 2 too long."
    let longer = with_length(&Plan::b(), 0, 3);
    assert_eq!(verdict(&longer).0, Answer::not_admitted(0, 2, 0));
    let shorter = with_length(&longer, 0, 3 - 2);
    assert_eq!(verdict(&shorter).0, Answer::GOOD);
}

/// Whether a kind has a k, whatever becomes of the others: the first refused kind is another, or none is.
fn fits(plan: &Plan, i: usize) -> bool {
    let held = layout::h(plan, usize::from(plan.kinds[i].project));
    verdict::least_k(plan, &held, i).is_some()
}

#[test]
fn shorter_by_the_excess_is_enough_and_by_less_is_not() {
    let mut kinds = Vec::new();
    for t in 1..=4 {
        for d in 1..=t {
            for c in 1..=d {
                kinds.push((0, t, d, c));
            }
        }
    }
    let (mut some, mut none) = (0, 0);
    for (q, frame, b) in [
        (1, 1, 1),
        (1, 3, 2),
        (2, 2, 3),
        (2, 3, 5),
        (3, 1, 3),
        (2, 4, 7),
    ] {
        for &first in &kinds {
            for &other in &kinds {
                for &third in &kinds {
                    let plan = Plan::of(q, frame, &[(q, b)], &[first, other, third]);
                    let answer = verdict(&plan).0;
                    if answer.number != 8 {
                        continue;
                    }
                    let i = answer.place as usize;
                    let c = u64::from(plan.kinds[i].length);
                    assert!((1..=c).contains(&answer.excess));
                    for shorter in 1..=c {
                        let tried = with_length(&plan, i, shorter as u16);
                        assert_eq!(fits(&tried, i), shorter <= c - answer.excess, "{plan:?}");
                    }
                    some += u64::from(answer.excess < c);
                    none += u64::from(answer.excess == c);
                }
            }
        }
    }
    assert!(some > 1000 && none > 1000, "{some} {none}");
}
