//! The generator: the same seed gives the same input, and what it reaches.

use generate::{
    fixed_damage, fixed_lists, fixed_open_budgets, fixed_plan_records, fixed_state_records,
    fixed_streams, fixed_sums, limit_plans, Generator,
};
use second::play::{command, Command};
use second::*;
use std::collections::{BTreeMap, BTreeSet};

/// Fewer runs where the program is built without speed.
const RUNS: u64 = if cfg!(debug_assertions) { 200 } else { 1200 };

/// What the player prints, and the number and place of its first line.
fn played(bytes: &[u8]) -> (String, (u64, u64)) {
    let mut output = Vec::new();
    play(bytes, &mut output);
    let output = String::from_utf8(output).unwrap();
    let first = output.lines().next().unwrap();
    let answer = match first
        .strip_prefix("plan refused ")
        .and_then(|rest| rest.split_once(" at "))
    {
        Some((number, place)) => (number.parse().unwrap(), place.parse().unwrap()),
        None => {
            assert_eq!(first, "plan ok");
            (0, 0)
        }
    };
    (output, answer)
}

fn places(number: u64) -> std::ops::Range<u64> {
    match number {
        4 => 0..8,
        5 | 6 | 8 => 0..16,
        _ => 0..1,
    }
}

#[test]
fn the_same_seed_gives_the_same_input() {
    for seed in [0, 1, u64::MAX] {
        let (mut one, mut other) = (Generator::new(seed), Generator::new(seed));
        for _ in 0..15 {
            assert_eq!(one.stream(), other.stream());
            assert_eq!(one.plan_record(), other.plan_record());
            let (state, same) = (one.state_record(), other.state_record());
            assert_eq!(state, same);
            assert_eq!(one.release_numbers(&state), other.release_numbers(&state));
            assert_eq!(one.row_buffer(&state), other.row_buffer(&state));
        }
        assert_ne!(one.stream(), Generator::new(seed ^ 2).stream());
    }
    assert_eq!(fixed_streams(), fixed_streams());
}

#[test]
fn fixed_streams_reach_each_number_at_each_place() {
    let streams = fixed_streams();
    let mut reached = BTreeSet::new();
    let mut lines = String::new();
    let mut admitted = 0;
    for stream in &streams {
        let (output, answer) = played(&stream.bytes);
        reached.insert(answer);
        admitted += u64::from(answer.0 == 0);
        lines += &output;
    }
    for number in 1..=8 {
        for place in places(number) {
            assert!(reached.contains(&(number, place)), "{number} at {place}");
        }
    }
    for end in [
        " ok",
        " refused 12",
        " refused 13",
        " refused 14",
        "bad command",
    ] {
        assert!(lines.lines().any(|line| line.ends_with(end)), "{end}");
    }
    println!(
        "fixed streams {}, admitted {admitted}, lines {}",
        streams.len(),
        lines.lines().count()
    );
}

#[test]
fn random_streams_are_mostly_admitted_and_reach_each_number() {
    let mut generator = Generator::new(31);
    let mut numbers: BTreeMap<u64, u64> = BTreeMap::new();
    let mut ends: BTreeMap<String, u64> = BTreeMap::new();
    let mut lines = 0;
    for _ in 0..RUNS {
        let (output, answer) = played(&generator.stream().bytes);
        *numbers.entry(answer.0).or_default() += 1;
        for line in output.lines().skip(1) {
            lines += 1;
            let end = match line.split_once(" refused ") {
                Some((_, number)) => format!("refused {number}"),
                None => line[..1].to_string(),
            };
            *ends.entry(end).or_default() += 1;
        }
    }
    println!("streams {RUNS}, lines {lines}, first lines {numbers:?}, other lines {ends:?}");
    assert!(numbers[&0] > RUNS / 2);
    assert!((1..=8).all(|number| numbers.contains_key(&number)));
    for end in ["r", "t", "b", "e", "refused 12", "refused 13", "refused 14"] {
        assert!(ends[end] > RUNS / 10, "{end}");
    }
}

#[test]
fn fixed_records_reach_each_number_at_each_place() {
    let plans = fixed_plan_records();
    let reached: BTreeSet<(u64, u64)> = plans
        .iter()
        .map(|plan| verdict(plan).0)
        .map(|answer| (answer.number, answer.place))
        .collect();
    for number in 2..=8 {
        for place in places(number) {
            assert!(reached.contains(&(number, place)), "{number} at {place}");
        }
    }

    let states = fixed_state_records();
    let mut releases: BTreeMap<u64, u64> = BTreeMap::new();
    let mut slices: BTreeMap<u64, u64> = BTreeMap::new();
    for state in &states {
        for kind in 0..=16 {
            for e in [0, 1, 65536] {
                *releases
                    .entry(release(state, kind, e).0.number)
                    .or_default() += 1;
            }
        }
        for count in 0..10 {
            *slices
                .entry(slice(state, &mut vec![0; count]).0.number)
                .or_default() += 1;
        }
    }
    println!(
        "fixed plan records {}, fixed state records {}",
        plans.len(),
        states.len()
    );
    for number in [0, 2, 10, 12, 13, 14] {
        assert!(releases.contains_key(&number), "{number}");
    }
    for number in [0, 2, 9, 10] {
        assert!(slices.contains_key(&number), "{number}");
    }
}

#[test]
fn fixed_sums_differ_by_each_bit_in_each_place() {
    let states = fixed_sums();
    let mut numbers: BTreeMap<u64, u64> = BTreeMap::new();
    let mut bits = BTreeSet::new();
    for state in &states {
        let told = release(state, 16, 0).0.number;
        assert_eq!(
            show(state, &mut []).number,
            if told == 12 { 9 } else { told }
        );
        *numbers.entry(told).or_default() += 1;
        let right = state.summed().sums;
        for place in (0..8).filter(|_| told == 16) {
            bits.insert((place, state.sums[place] ^ right[place]));
        }
    }
    println!("fixed sums {}, {numbers:?}", states.len());
    for number in [6, 10, 12, 16] {
        assert!(numbers.contains_key(&number), "{number}");
    }
    for place in 0..8 {
        for bit in 0..16 {
            assert!(bits.contains(&(place, 1 << bit)), "sum {place}, bit {bit}");
        }
    }
}

#[test]
fn fixed_open_budgets_reach_each_number_at_each_place_and_each_boundary() {
    let open = fixed_open_budgets();
    let mut reached = BTreeSet::new();
    let (mut ones, mut whole, mut exact) = (0, 0, 0);
    for (plan, project) in &open {
        let (answer, budget) = smallest_budget(plan, *project);
        reached.insert((answer.number, answer.place));
        let cells = u64::from(plan.m) * u64::from(plan.frame);
        let mut sum = budget;
        for (place, other) in plan.used_projects().iter().enumerate() {
            if place as u64 != *project {
                sum += u64::from(other.budget);
            }
        }
        if answer.is_good() {
            let q = plan.projects[*project as usize].ceiling;
            ones += u64::from(budget == 1);
            whole += u64::from(budget == u64::from(q) * u64::from(plan.frame) && budget > 1);
            exact += u64::from(sum == cells);
        }
    }
    println!(
        "open budgets {}: 1 {ones}, qF {whole}, sum mF {exact}",
        open.len()
    );
    assert!(ones > 50 && whole > 50 && exact > 50);
    for number in [0, 2, 3, 4, 5, 6, 7, 8, 27] {
        for place in places(number) {
            assert!(reached.contains(&(number, place)), "{number} at {place}");
        }
    }
}

#[test]
fn fixed_lists_reach_each_number_at_each_place_and_each_boundary() {
    let lists = fixed_lists();
    let mut reached = BTreeSet::new();
    let mut frames = BTreeSet::new();
    let (mut exact, mut whole) = (0, 0);
    for (m, bytes) in &lists {
        let list = one_kind::listed(bytes);
        let (answer, plan) = build(*m, &list);
        reached.insert((answer.number, answer.place));
        if answer.is_good() {
            frames.insert(plan.frame);
            let cells: u64 = plan.projects.iter().map(|one| u64::from(one.budget)).sum();
            exact += u64::from(cells == m * u64::from(plan.frame));
            whole += u64::from(plan.projects.iter().any(|one| one.budget == 64));
        }
    }
    println!("lists {}: sum mF {exact}, B 64 {whole}", lists.len());
    assert!(exact > 50 && whole > 20 && frames.contains(&1) && frames.contains(&64));
    for number in [0, 7, 17, 18, 19] {
        assert!(reached.contains(&(number, 0)), "{number}");
    }
    for place in 0..8 {
        assert!(reached.contains(&(6, place)), "6 at {place}");
    }
}

/// What damage leads to: the numbers, and each field at each place; with the most entries there were.
fn reached_by(damaged: &[Vec<u8>]) -> (BTreeMap<u64, u64>, BTreeSet<(u8, u8)>, usize) {
    let mut numbers = BTreeMap::new();
    let (mut fields, mut most) = (BTreeSet::new(), 0);
    for bytes in damaged {
        let mut list = [0; 342];
        let (answer, plan, count) = rescue(bytes, &mut list);
        let number = match answer.number {
            // 7 or not.
            0 => check(&plan).number,
            number => number,
        };
        *numbers.entry(number).or_default() += 1;
        for entry in list[..count].chunks(6) {
            fields.insert((entry[0], entry[1]));
        }
        most = most.max(count / 6);
    }
    (numbers, fields, most)
}

#[test]
fn fixed_damage_reaches_each_number_and_each_field_at_each_place() {
    let damaged = fixed_damage();
    let (numbers, fields, most) = reached_by(&damaged);
    println!(
        "fixed damage {}, {numbers:?}, at most {most}",
        damaged.len()
    );
    for number in [0, 1, 2, 7, 20] {
        assert!(numbers.contains_key(&number), "{number}");
    }
    for (field, places) in [(1, 1), (2, 8), (3, 16), (4, 8), (5, 8), (6, 16), (7, 16)] {
        for place in 0..places {
            assert!(fields.contains(&(field, place)), "{field} at {place}");
        }
    }
    assert_eq!(most, 57);
}

#[test]
fn random_damage_reaches_each_number_and_each_field() {
    let mut generator = Generator::new(35);
    let mut damaged = Vec::new();
    for _ in 0..RUNS / 4 {
        let plan = generator.good_plan();
        damaged.extend((0..8).map(|_| generator.damaged(&plan)));
    }
    let (numbers, fields, most) = reached_by(&damaged);
    println!("damage {}, {numbers:?}, at most {most}", damaged.len());
    for number in [0, 1, 2, 7, 20] {
        assert!(numbers.contains_key(&number), "{number}");
    }
    for field in 1..=7 {
        assert!(fields.iter().any(|one| one.0 == field), "{field}");
    }
}

#[test]
fn random_lists_reach_each_number() {
    let mut generator = Generator::new(34);
    let mut reached: BTreeMap<u64, u64> = BTreeMap::new();
    for _ in 0..RUNS {
        let (m, bytes) = generator.cards_and_list();
        let (answer, _) = build(m, &one_kind::listed(&bytes));
        *reached.entry(answer.number).or_default() += 1;
    }
    println!("lists {RUNS}, {reached:?}");
    for number in [0, 6, 7, 17, 18, 19] {
        assert!(reached.contains_key(&number), "{number}");
    }
    assert!(reached[&0] > RUNS / 8);
}

#[test]
fn random_records_reach_each_number() {
    let mut generator = Generator::new(32);
    let mut plans: BTreeMap<u64, u64> = BTreeMap::new();
    for _ in 0..RUNS {
        *plans
            .entry(verdict(&generator.plan_record()).0.number)
            .or_default() += 1;
    }
    println!("plan records {RUNS}, verdicts {plans:?}");
    assert!(plans[&0] > RUNS / 3);
    for number in 2..=8 {
        assert!(plans.contains_key(&number), "{number}");
    }

    let mut open: BTreeMap<u64, u64> = BTreeMap::new();
    for _ in 0..RUNS / 8 {
        let plan = generator.plan_record();
        let project = generator.project_number(&plan);
        let (answer, _) = smallest_budget(&plan, project);
        *open.entry(answer.number).or_default() += 1;
    }
    println!("open budgets {}, {open:?}", RUNS / 8);
    assert!([0, 2, 3, 4, 27]
        .iter()
        .all(|number| open.contains_key(number)));

    let mut releases: BTreeMap<u64, u64> = BTreeMap::new();
    let mut slices: BTreeMap<u64, u64> = BTreeMap::new();
    for _ in 0..RUNS {
        let state = generator.state_record();
        let (kind, e) = generator.release_numbers(&state);
        *releases
            .entry(release(&state, kind, e).0.number)
            .or_default() += 1;
        let mut row = generator.row_buffer(&state);
        *slices.entry(slice(&state, &mut row).0.number).or_default() += 1;
    }
    println!("state records {RUNS}, releases {releases:?}, slices {slices:?}");
    for number in [0, 2, 3, 4, 6, 10, 12, 13, 14, 16] {
        assert!(releases.contains_key(&number), "{number}");
    }
    for number in [0, 2, 3, 4, 6, 9, 10, 16] {
        assert!(slices.contains_key(&number), "{number}");
    }
    // "11 and 15 are retired".
    for number in [11, 15] {
        assert!(!releases.contains_key(&number) && !slices.contains_key(&number));
    }
}

#[test]
fn admitted_plans_are_admitted_and_of_every_shape() {
    // Enough for each m, p, n and q to come.
    const RUNS: u64 = if cfg!(debug_assertions) { 300 } else { 1200 };
    let mut generator = Generator::new(33);
    let mut ks: BTreeMap<u8, u64> = BTreeMap::new();
    let mut tight = 0;
    let mut found: BTreeSet<(&str, u64)> = BTreeSet::new();
    for _ in 0..RUNS {
        let plan = generator.admitted_plan();
        let (answer, k, _) = verdict(&plan);
        assert_eq!(answer, Answer::GOOD);
        let mut exact = false;
        for (i, &k) in k[..usize::from(plan.n)].iter().enumerate() {
            *ks.entry(k).or_default() += 1;
            let (asked, supplied) = verdict::asked_and_supplied(&plan, i, u64::from(k));
            exact |= asked == supplied;
        }
        tight += u64::from(exact);
        found.extend([
            ("m", u64::from(plan.m)),
            ("p", u64::from(plan.p)),
            ("n", u64::from(plan.n)),
            ("F", u64::from(plan.frame)),
        ]);
        for project in plan.used_projects() {
            found.insert(("q", u64::from(project.ceiling)));
            found.insert(("B", u64::from(project.budget)));
        }
        for kind in plan.used_kinds() {
            found.insert(("T", u64::from(kind.separation)));
            found.insert(("D", u64::from(kind.deadline)));
            found.insert(("C", u64::from(kind.length)));
        }
    }
    println!("admitted {RUNS}, exactly at the supply {tight}, kinds by k {ks:?}");
    for (name, most) in [("m", 8), ("p", 8), ("n", 16), ("q", 8)] {
        for value in 1..=most {
            assert!(found.contains(&(name, value)), "{name} {value}");
        }
    }
    for (name, value) in [("F", 1), ("F", 64), ("B", 1), ("T", 1), ("D", 1), ("C", 1)] {
        assert!(found.contains(&(name, value)), "{name} {value}");
    }
    assert!(ks[&1] > RUNS && ks[&2] > RUNS / 5 && tight > RUNS / 2);
}

#[test]
fn the_limit_plans_have_admitted_plans_at_each_end() {
    let plans: Vec<Plan> = limit_plans()
        .into_iter()
        .filter(|plan| verdict(plan).0.is_good())
        .collect();
    println!(
        "limit plans {}, admitted {}",
        limit_plans().len(),
        plans.len()
    );
    let ends = |name: &str, value: fn(&Plan) -> u16, least: u16, most: u16| {
        for end in [least, most] {
            assert!(plans.iter().any(|plan| value(plan) == end), "{name} {end}");
        }
    };
    ends("m", |plan| u16::from(plan.m), 1, 8);
    ends("p", |plan| u16::from(plan.p), 1, 8);
    ends("n", |plan| u16::from(plan.n), 1, 16);
    ends("F", |plan| u16::from(plan.frame), 1, 64);
    ends("q", |plan| u16::from(plan.projects[0].ceiling), 1, 8);
    ends("B", |plan| plan.projects[0].budget, 1, 512);
    ends("T", |plan| plan.kinds[0].separation, 1, 4095);
    ends("D", |plan| plan.kinds[0].deadline, 1, 4095);
    ends("C", |plan| plan.kinds[0].length, 1, 4095);
}

#[test]
fn long_plans_are_admitted_and_their_runs_pass_separations_to_the_end_of_their_range() {
    let mut generator = Generator::new(36);
    let (mut again, mut early, mut longest) = (0, 0, 0);
    for _ in 0..RUNS.min(12) {
        let plan = generator.long_plan();
        let (answer, state) = fresh(&plan);
        assert!(answer.is_good());
        let mut state = state;
        for bytes in generator.patient_run(state, 9_000).chunks_exact(3) {
            match command(bytes) {
                Command::Release { kind, e } => {
                    let t = plan.kinds[kind as usize].separation;
                    let before = state.kinds[kind as usize];
                    let (answer, next) = release(&state, kind, e);
                    if answer.is_good() && before.released && t >= 1000 {
                        assert_eq!(before.gone, t);
                        again += 1;
                        longest = longest.max(t);
                    }
                    early += u64::from(answer.number == 14 && before.gone + 1 == t);
                    state = next;
                }
                _ => state = slice(&state, &mut [0; 8]).1,
            }
        }
    }
    println!(
        "released again {again}, one slice too early {early}, the longest separation {longest}"
    );
    assert!(again > 50 && early > 50 && longest == 4095);
}
