//! "A simple form for one-kind projects", document 02's request (vi).

use second::one_kind::listed;
use second::*;

fn refused(number: u64, place: u64) -> (Answer, Plan) {
    let answer = Answer {
        number,
        place,
        excess: 0,
        slice: 0,
    };
    (answer, Plan::default())
}

fn built(m: u8, frame: u8, list: &[(u16, u16)], budgets: &[u16]) -> (Answer, Plan) {
    let projects: Vec<_> = budgets.iter().map(|&budget| (1, budget)).collect();
    let kinds = list.iter().zip(0..).map(|(&(t, c), i)| (i, t, t, c));
    let kinds: Vec<_> = kinds.collect();
    (Answer::GOOD, Plan::of(m, frame, &projects, &kinds))
}

#[test]
fn the_opening_example_of_000() {
    // As one project it is refused (P9); each kind on its own fills both cards.
    let list = [(3, 2), (6, 4), (6, 3)];
    assert_eq!(build(2, &list), built(2, 3, &list, &[2, 2, 2]));
    assert_eq!(build(1, &list), refused(7, 0));
    assert_eq!(build(8, &list).1.m, 8);
}

#[test]
fn a_sum_of_exactly_m() {
    let list = [(4, 3), (4, 3), (8, 4)];
    assert_eq!(build(2, &list), built(2, 4, &list, &[3, 3, 2]));
    assert_eq!(build(2, &[(4, 3), (4, 3), (8, 5)]), refused(7, 0));
    for m in 1..=8u8 {
        let list = vec![(64, 64); usize::from(m)];
        let budgets = vec![64; usize::from(m)];
        assert_eq!(build(u64::from(m), &list), built(m, 64, &list, &budgets));
        if m > 1 {
            assert_eq!(build(u64::from(m) - 1, &list), refused(7, 0));
        }
    }
}

#[test]
fn within_m_and_not_of_multiples() {
    // 1/2 and 1/3 of one card; F is 1, and each is rounded up to a whole card.
    assert_eq!(build(1, &[(2, 1), (3, 1)]), refused(7, 0));
    let list = [(2, 1), (3, 1)];
    assert_eq!(build(2, &list), built(2, 1, &list, &[1, 1]));
}

#[test]
fn the_divisor() {
    assert_eq!(build(1, &[(64, 1)]).1.frame, 64);
    assert_eq!(build(1, &[(65, 1)]), refused(19, 0));
    assert_eq!(build(8, &[(128, 1), (192, 1)]).1.frame, 64);
    assert_eq!(build(8, &[(130, 1), (195, 1)]), refused(19, 0));
    assert_eq!(build(8, &[(4095, 1), (4094, 1)]).1.frame, 1);
    // Of all: the first two have 6 in common.
    assert_eq!(build(8, &[(12, 1), (18, 1), (4, 1), (8, 1)]).1.frame, 2);
}

#[test]
fn the_order_of_the_numbers() {
    let nine = [(1, 1); 9];
    assert_eq!(build(0, &nine), refused(17, 0));
    assert_eq!(build(9, &nine), refused(17, 0));
    assert_eq!(build(256 + 1, &[(2, 1)]), refused(17, 0));
    assert_eq!(build(u64::MAX, &[(2, 1)]), refused(17, 0));
    assert_eq!(build(8, &[]), refused(17, 0));
    assert_eq!(build(8, &nine), refused(18, 0));
    assert_eq!(build(8, &[(0, 0); 9]), refused(18, 0));
    assert_eq!(build(8, &nine[..8]).0, Answer::GOOD);
    // 6 at the first such kind, beside 19 and 7.
    for (t, c) in [(0, 0), (4, 0), (4, 5), (4096, 1), (65535, 65535), (0, 1)] {
        for place in 0..8 {
            let mut list = [(4095, 4095); 8];
            list[place] = (t, c);
            list[7] = (t, c);
            assert_eq!(build(1, &list), refused(6, place.min(7) as u64));
        }
    }
    // 19 before 7.
    assert_eq!(build(1, &[(65, 65); 2]), refused(19, 0));
    assert_eq!(build(1, &[(64, 64); 2]), refused(7, 0));
}

#[test]
fn bytes_as_a_list() {
    assert_eq!(listed(&[]), []);
    assert_eq!(
        listed(&[1, 2, 3, 4, 0, 0, 255, 255]),
        [(258, 772), (0, 65535)]
    );
    for cut in [1, 2, 3, 5, 6, 7] {
        assert_eq!(listed(&[0, 2, 0, 1, 0, 2, 0, 1][..cut]), []);
    }
}

#[test]
fn what_is_built_is_admitted_with_the_smallest_budgets() {
    for t in 1..=12u16 {
        for u in 1..=12u16 {
            for c in 1..=t {
                for d in 1..=u {
                    let (answer, plan) = build(2, &[(t, c), (u, d)]);
                    assert!(answer.is_good(), "two cards are enough for two kinds");
                    assert_eq!(verdict(&plan).0, Answer::GOOD);
                    for project in 0..2 {
                        let budget = u64::from(plan.projects[project].budget);
                        let least = smallest_budget(&plan, project as u64);
                        assert_eq!(least, (Answer::GOOD, budget));
                    }
                    // Of multiples: built on one card exactly when the fractions are at most one.
                    let frame = plan.frame;
                    let whole = |t: u16, c: u16| u16::from(frame) * c % t == 0;
                    if whole(t, c) && whole(u, d) {
                        let one = build(1, &[(t, c), (u, d)]).0.is_good();
                        assert_eq!(one, c * u + d * t <= t * u);
                    }
                }
            }
        }
    }
}
