//! "Rescue a damaged plan file", document 02's request (viii).

use second::bytes::{pack, plan_bytes};
use second::rescue::applied;
use second::*;

/// The most changes that a list can hold: each spare part, each q and B, and of each kind its spare bit and its D.
const MOST: usize = 1 + 8 + 16 + 2 * 8 + 16;

fn bit(bytes: &[u8], at: usize) -> u16 {
    u16::from(bytes[at / 8] >> (7 - at % 8) & 1)
}

fn put(bytes: &mut [u8], (from, count): (usize, usize), value: u16) {
    for (at, place) in (from..from + count).zip((0..count).rev()) {
        let mask = 1 << (7 - at % 8);
        bytes[at / 8] &= !mask;
        if value >> place & 1 == 1 {
            bytes[at / 8] |= mask;
        }
    }
}

/// The sentences of the request, for any bytes; gives back the list.
fn hold(bytes: &[u8]) -> Vec<u8> {
    let mut list = [0xEE; 6 * MOST];
    let (answer, plan, count) = rescue(bytes, &mut list);
    assert_eq!(list[count..], [0xEE; 6 * MOST][count..]);
    let list = list[..count].to_vec();
    // What follows is not looked at.
    let front = &bytes[..bytes.len().min(bytes::bytes_asked_for(bytes))];
    assert_eq!(rescue(front, &mut [0; 6 * MOST]), (answer, plan, count));
    if !answer.is_good() {
        assert_eq!((plan, count), (Plan::default(), 0));
        let read = read(bytes).0;
        match answer.number {
            // "1 and 2 as in reading".
            1 | 2 => assert_eq!(read, answer),
            20 => assert!(!matches!(read.number, 0 | 1 | 2 | 7)),
            number => panic!("{number}"),
        }
        // 9 comes last.
        assert_eq!(rescue(bytes, &mut []).0, answer);
        return list;
    }

    // "gives a plan that passes 2 to 6".
    assert!(matches!(check(&plan).number, 0 | 7), "{plan:?}");
    let result = pack(&plan);
    assert_eq!(applied(bytes, &list), Some(result.clone()));
    // "rescuing the result's bytes (7 or not) changes nothing".
    assert_eq!(rescue(&result, &mut []), (Answer::GOOD, plan, 0));
    // "A plan already in order gives an empty list".
    let in_order = matches!(read(bytes).0.number, 0 | 7);
    assert_eq!(count == 0, in_order);
    if in_order {
        assert_eq!(result, bytes[..result.len()]);
    }
    assert_eq!(read(bytes).0.is_good(), in_order && check(&plan).is_good());

    // No value that did not change, but the dropped kinds'.
    let changes = |entry: &[u8]| (entry[2..4] != entry[4..6]) != (entry[0] == 7);
    assert!(list.chunks(6).all(changes), "{list:?}");
    // No field twice, and in that order: 1, 2 and 3 by place, then 4 and 5 by project, then 6 and 7 by kind.
    let rank = |entry: &[u8]| match entry[0] {
        field @ 1..=3 => (field, entry[1], 0),
        field @ 4..=5 => (4, entry[1], field),
        field => (6, entry[1], field),
    };
    let ranks: Vec<_> = list.chunks(6).map(rank).collect();
    assert!(ranks.windows(2).all(|two| two[0] < two[1]), "{list:?}");
    assert!(ranks.len() <= MOST);
    // "a dropped kind has only that entry".
    for entry in list.chunks(6).filter(|entry| entry[0] == 7) {
        let same = |other: &&[u8]| matches!(other[0], 3 | 6 | 7) && other[1] == entry[1];
        assert_eq!(list.chunks(6).filter(same).count(), 1);
    }
    // "9 when the list's entries don't all fit".
    for room in [0, 1, count / 2, count.saturating_sub(1)] {
        let mut short = vec![0xEE; room];
        if room < count {
            let refused = (Answer::refused(9), Plan::default(), 0);
            assert_eq!(rescue(bytes, &mut short), refused);
            assert_eq!(short, vec![0xEE; room]);
        }
    }
    list
}

/// A wide plan: eight projects of one cell or more, sixteen kinds.
fn wide() -> Plan {
    let kinds: Vec<_> = (0..16)
        .map(|i| {
            (
                i % 8,
                30 + u16::from(i),
                20 + u16::from(i),
                1 + u16::from(i) / 4,
            )
        })
        .collect();
    Plan::of(8, 5, &[(2, 4); 8], &kinds)
}

#[test]
fn a_plan_in_order_is_left_as_it_is() {
    let largest = Plan::of(8, 64, &[(8, 64); 8], &[(7, 4095, 4095, 4095); 16]);
    for plan in [Plan::a(), Plan::b(), wide(), largest] {
        assert_eq!(rescue(&pack(&plan), &mut []), (Answer::GOOD, plan, 0));
        let more = [pack(&plan), vec![0xFF; 9]].concat();
        assert_eq!(rescue(&more, &mut []), (Answer::GOOD, plan, 0));
        assert_eq!(hold(&more), []);
    }
    // "7 or not".
    let mut over = Plan::a();
    over.projects[1].budget = 6;
    assert_eq!(check(&over), Answer::refused(7));
    assert_eq!(rescue(&pack(&over), &mut []), (Answer::GOOD, over, 0));
}

#[test]
fn each_change_by_its_bytes() {
    let a = Plan::a();
    let rescued = |change: &dyn Fn(&mut Plan), spare: &[usize]| {
        let mut plan = a;
        change(&mut plan);
        let mut bytes = pack(&plan);
        for &at in spare {
            let one = 1 - bit(&bytes, at);
            put(&mut bytes, (at, 1), one);
        }
        hold(&bytes)
    };
    let none = |_: &mut Plan| {};
    assert_eq!(rescued(&none, &[20]), [1, 0, 0, 8, 0, 0]);
    assert_eq!(rescued(&none, &[20, 21, 22, 23]), [1, 0, 0, 15, 0, 0]);
    assert_eq!(rescued(&none, &[24 + 15]), [2, 0, 0, 1, 0, 0]);
    assert_eq!(rescued(&none, &[40 + 14]), [2, 1, 0, 2, 0, 0]);
    assert_eq!(rescued(&none, &[56 + 80 + 39]), [3, 2, 0, 1, 0, 0]);
    let ceiling = |q: u8| move |plan: &mut Plan| plan.projects[0].ceiling = q;
    assert_eq!(rescued(&ceiling(0), &[]), [4, 0, 0, 0, 0, 1]);
    assert_eq!(rescued(&ceiling(3), &[]), [4, 0, 0, 3, 0, 2]);
    assert_eq!(rescued(&ceiling(15), &[]), [4, 0, 0, 15, 0, 2]);
    let budget = |b: u16| move |plan: &mut Plan| plan.projects[1].budget = b;
    assert_eq!(rescued(&budget(0), &[]), [5, 1, 0, 0, 0, 1]);
    assert_eq!(rescued(&budget(9), &[]), [5, 1, 0, 9, 0, 8]);
    assert_eq!(rescued(&budget(1023), &[]), [5, 1, 3, 255, 0, 8]);
    let deadline = |d: u16| move |plan: &mut Plan| plan.kinds[1].deadline = d;
    assert_eq!(rescued(&deadline(4095), &[]), [6, 1, 15, 255, 0, 4]);
    assert_eq!(rescued(&deadline(5), &[]), [6, 1, 0, 5, 0, 4]);
    // C of 2 is above a D of 1.
    assert_eq!(rescued(&deadline(1), &[]), [7, 1, 0, 0, 0, 0]);
    let absent = |plan: &mut Plan| plan.kinds[0].project = 2;
    assert_eq!(rescued(&absent, &[]), [7, 0, 0, 0, 0, 0]);
    let no_length = |plan: &mut Plan| plan.kinds[2].length = 0;
    assert_eq!(rescued(&no_length, &[]), [7, 2, 0, 0, 0, 0]);
}

#[test]
fn b_is_judged_with_the_new_q_and_c_with_the_new_d() {
    let mut plan = Plan::a();
    // q 0 becomes 1, so that B of 5 is above 4; with the old q it would be above 0.
    plan.projects[1].ceiling = 0;
    let mut list = [0; 12];
    let (answer, rescued, count) = rescue(&pack(&plan), &mut list);
    assert_eq!((answer, count), (Answer::GOOD, 12));
    assert_eq!(list, [4, 1, 0, 0, 0, 1, 5, 1, 0, 5, 0, 4]);
    assert_eq!(
        (rescued.projects[1].ceiling, rescued.projects[1].budget),
        (1, 4)
    );
    // q 15 becomes 2, so that B of 9 is above 8.
    plan.projects[1] = Project {
        ceiling: 15,
        budget: 9,
    };
    assert_eq!(hold(&pack(&plan)), [4, 1, 0, 15, 0, 2, 5, 1, 0, 9, 0, 8]);
    // C of 7 is within a D of 9, but not within a T of 6.
    let mut plan = Plan::a();
    plan.kinds[0] = Kind {
        project: 0,
        separation: 6,
        deadline: 9,
        length: 7,
    };
    assert_eq!(hold(&pack(&plan)), [7, 0, 0, 0, 0, 0]);
    plan.kinds[0].length = 6;
    assert_eq!(hold(&pack(&plan)), [6, 0, 0, 9, 0, 6]);
}

#[test]
fn a_dropped_kind_has_only_its_entry_and_the_later_ones_move_up() {
    let mut plan = wide();
    plan.kinds[3].project = 0;
    plan.kinds[3].separation = 0;
    plan.kinds[9].length = 0;
    plan.kinds[10].deadline = 99;
    let mut bytes = pack(&plan);
    for place in [3, 10] {
        bytes[3 + 16 + 5 * place + 4] |= 1;
    }
    let expected = [
        [3, 10, 0, 1, 0, 0],
        [7, 3, 0, 0, 0, 0],
        [7, 9, 0, 0, 0, 0],
        [6, 10, 0, 99, 0, 40],
    ];
    assert_eq!(hold(&bytes), expected.concat());
    let (_, rescued, _) = rescue(&bytes, &mut [0; 24]);
    assert_eq!((rescued.n, rescued.kinds[13].project), (14, 7));
    assert_eq!(rescued.kinds[8].deadline, 40);
    assert_eq!(rescued.kinds[14..], [Kind::default(); 2]);
}

#[test]
fn refusals_1_2_1_20_9() {
    let bytes = pack(&Plan::a());
    let refused = |number| (Answer::refused(number), Plan::default(), 0);
    for count in 0..22 {
        assert_eq!(rescue(&bytes[..count], &mut [0; 342]), refused(1));
    }
    // 2 before the total's 1.
    assert_eq!(rescue(&[0x92, 0x18, 0x40], &mut []), refused(2));
    let mut lost = Plan::a();
    for kind in &mut lost.kinds {
        kind.length = 0;
    }
    let mut list = [0xEE; 342];
    assert_eq!(rescue(&pack(&lost), &mut list), refused(20));
    assert_eq!(list, [0xEE; 342]);
    // 20 before 9, and one kind is enough.
    assert_eq!(rescue(&pack(&lost), &mut []), refused(20));
    lost.kinds[2].length = 1;
    assert_eq!(rescue(&pack(&lost), &mut [0; 11]), refused(9));
    let (answer, rescued, count) = rescue(&pack(&lost), &mut [0; 12]);
    assert_eq!((answer, rescued.n, count), (Answer::GOOD, 1, 12));
}

#[test]
fn every_single_flip_and_more() {
    let mut seed = 1u64;
    let mut below = |bound: usize| {
        seed = seed.wrapping_mul(6364136223846793005).wrapping_add(1);
        (seed >> 33) as usize % bound
    };
    for plan in [Plan::a(), Plan::b(), wide()] {
        let bytes = pack(&plan);
        assert_eq!(bytes.len(), plan_bytes(plan.p, plan.n));
        for at in 0..8 * bytes.len() {
            let mut flipped = bytes.clone();
            flipped[at / 8] ^= 1 << (7 - at % 8);
            hold(&flipped);
        }
        for _ in 0..20_000 {
            let mut flipped = bytes.clone();
            for _ in 0..2 + below(19) {
                let at = below(8 * bytes.len());
                flipped[at / 8] ^= 1 << (7 - at % 8);
            }
            hold(&flipped);
        }
    }
}

#[test]
fn a_list_is_applied_where_its_old_values_stand() {
    let bytes = pack(&Plan::a());
    assert_eq!(applied(&bytes, &[]), Some(bytes.clone()));
    // Project 1 has a B of 5.
    let lowered = applied(&bytes, &[5, 1, 0, 5, 0, 4]);
    assert_eq!(
        lowered.map(|bytes| read(&bytes).1.projects[1].budget),
        Some(4)
    );
    assert_eq!(applied(&bytes, &[5, 1, 0, 6, 0, 4]), None);
    assert_eq!(applied(&bytes, &[5, 1, 0, 5, 0]), None);
    assert_eq!(applied(&bytes, &[7, 1, 0, 0, 0, 1]), None);
    assert_eq!(applied(&bytes, &[8, 1, 0, 0, 0, 1]), None);
    // No such place, a kind that leaves twice, and no whole plan.
    assert_eq!(applied(&bytes, &[6, 99, 0, 0, 0, 1]), None);
    assert_eq!(applied(&bytes, &[7, 3, 0, 0, 0, 0]), None);
    assert_eq!(applied(&bytes, &[7, 1, 0, 0, 0, 0].repeat(2)), None);
    assert_eq!(applied(&bytes[..21], &[]), None);
    assert_eq!(applied(&[], &[]), None);
    // Kind 1 leaves.
    let left = applied(&bytes, &[7, 1, 0, 0, 0, 0]).unwrap();
    let (answer, plan, taken) = read(&left);
    assert_eq!((answer, plan.n, taken), (Answer::GOOD, 2, 17));
    assert_eq!(plan.kinds[1], Plan::a().kinds[2]);
}

#[test]
fn the_longest_list_there_is() {
    // Every spare bit, every q and B, and every D, with C within T.
    let plan = Plan::of(1, 1, &[(15, 1023); 8], &[(7, 5, 4095, 5); 16]);
    let mut bytes = pack(&plan);
    bytes[2] |= 15;
    for place in 0..8 {
        bytes[3 + 2 * place + 1] |= 3;
    }
    for place in 0..16 {
        bytes[19 + 5 * place + 4] |= 1;
    }
    assert_eq!(hold(&bytes).len(), 6 * 57);
    assert_eq!(MOST, 57);
}
