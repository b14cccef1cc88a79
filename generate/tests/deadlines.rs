//! Demand 3 by simulation, over accepted releases and the rows written, from a fresh start:
//! each accepted unit is finished by its deadline, no kind is twice in a row, a project is served
//! at most B slices in any F in a row, and exactly B when enough of its kinds have work.

use generate::Generator;
use second::layout::h;
use second::*;
use std::collections::HashSet;

/// Fewer runs where the program is built without speed.
const RUNS: u64 = if cfg!(debug_assertions) { 60 } else { 1000 };

/// How the releases come.
#[derive(Clone, Copy, Debug)]
enum Manner {
    /// Every kind at full length as soon as it may be, all together.
    Together,
    /// The same, each kind beginning in a slice of its own.
    Shifted,
    /// Any length, and some slices later than it may be.
    Lagging,
}

/// What a run has shown.
#[derive(Default)]
struct Seen {
    units: u64,
    slices: u64,
    full_windows: u64,
}

/// One unit accepted: kind, slices run before the release, length.
type Unit = (usize, u32, u64);

/// Plays from the given state and checks every row, every window and, if told so, every deadline.
fn run(
    start: State,
    manner: Manner,
    slices: u32,
    generator: &mut Generator,
    in_time: bool,
    seen: &mut Seen,
) {
    let plan = start.plan;
    let frame = usize::from(plan.frame);
    let projects = plan.used_projects();
    let held: Vec<Vec<u64>> = (0..projects.len())
        .map(|project| h(&plan, project))
        .collect();
    let begin: Vec<u32> = plan
        .used_kinds()
        .iter()
        .map(|kind| match manner {
            Manner::Together => 0,
            _ => generator.below(u64::from(kind.separation) + 1).min(40) as u32,
        })
        .collect();
    let offset = generator.below(frame as u64) as u32;

    let mut state = start;
    let mut units: Vec<Unit> = Vec::new();
    let mut rows: Vec<Vec<u8>> = Vec::new();
    let mut served: Vec<Vec<u64>> = vec![Vec::new(); projects.len()];
    let mut enough: Vec<Vec<bool>> = vec![Vec::new(); projects.len()];

    for clock in 0..slices {
        if !in_time {
            // A unit that is late is out of form; it is given up.
            for (place, kind) in state.kinds.iter_mut().zip(plan.used_kinds()) {
                if place.gone >= kind.deadline {
                    place.left = 0;
                }
            }
            state = state.summed();
        }
        for (i, kind) in plan.used_kinds().iter().enumerate() {
            let place = state.kinds[i];
            let due = !place.released || place.gone >= kind.separation;
            if !due || clock < offset + begin[i] {
                continue;
            }
            let c = u64::from(kind.length);
            let e = match manner {
                Manner::Lagging if generator.one_in(3) => continue,
                Manner::Lagging => generator.between(1, c),
                _ => c,
            };
            let (answer, next) = release(&state, i as u64, e);
            assert_eq!(answer, Answer::GOOD, "a due release");
            state = next;
            units.push((i, clock, e));
        }

        let mut row = vec![0; usize::from(plan.m)];
        let (answer, next) = slice(&state, &mut row);
        assert_eq!(answer, Answer::GOOD);
        assert_eq!(
            usize::from(next.slice),
            (usize::from(state.slice) + 1) % frame
        );

        let chosen: Vec<usize> = row
            .iter()
            .filter(|&&byte| byte > 0)
            .map(|&byte| usize::from(byte) - 1)
            .collect();
        let different: HashSet<usize> = chosen.iter().copied().collect();
        assert_eq!(chosen.len(), different.len(), "no kind twice in a row");
        for project in 0..projects.len() {
            let of_project = |i: usize| usize::from(plan.kinds[i].project) == project;
            let busy = (0..usize::from(plan.n))
                .filter(|&i| of_project(i) && state.kinds[i].left > 0)
                .count() as u64;
            let count = chosen.iter().filter(|&&i| of_project(i)).count() as u64;
            let here = held[project][usize::from(state.slice)];
            assert_eq!(
                count,
                busy.min(here),
                "as many as it holds, if they have work"
            );
            served[project].push(count);
            enough[project].push(busy >= here);
        }
        rows.push(row);
        state = next;
        for (i, kind) in plan.used_kinds().iter().enumerate() {
            if in_time && state.kinds[i].released && state.kinds[i].gone >= kind.deadline {
                assert_eq!(
                    state.kinds[i].left, 0,
                    "kind {i} late in {plan:?}, {manner:?}"
                );
            }
        }
    }

    for &(i, at, e) in units.iter().filter(|_| in_time) {
        let from = at as usize;
        let to = from + usize::from(plan.kinds[i].deadline);
        if to <= rows.len() {
            let count = rows[from..to]
                .iter()
                .flatten()
                .filter(|&&byte| usize::from(byte) == i + 1)
                .count();
            assert_eq!(
                count as u64, e,
                "unit of kind {i} released at {at} in {plan:?}"
            );
            seen.units += 1;
        }
    }
    for (project, record) in projects.iter().enumerate() {
        let b = u64::from(record.budget);
        for from in 0..(rows.len() + 1).saturating_sub(frame) {
            let sum: u64 = served[project][from..from + frame].iter().sum();
            assert!(sum <= b);
            if enough[project][from..from + frame]
                .iter()
                .all(|&enough| enough)
            {
                assert_eq!(sum, b);
                seen.full_windows += 1;
            }
        }
    }
    seen.slices += rows.len() as u64;
}

fn horizon(plan: &Plan) -> u32 {
    let longest = plan
        .used_kinds()
        .iter()
        .map(|kind| u32::from(kind.separation))
        .max()
        .unwrap_or(1);
    (3 * longest + 2 * u32::from(plan.frame)).min(900)
}

#[test]
fn each_accepted_unit_is_finished_by_its_deadline() {
    let mut generator = Generator::new(21);
    let mut seen = Seen::default();
    for _ in 0..RUNS {
        let plan = generator.admitted_plan();
        let (answer, state) = fresh(&plan);
        assert_eq!(answer, Answer::GOOD);
        for manner in [Manner::Together, Manner::Shifted, Manner::Lagging] {
            run(
                state,
                manner,
                horizon(&plan),
                &mut generator,
                true,
                &mut seen,
            );
        }
    }
    println!(
        "plans {RUNS}, units {}, slices {}, full windows {}",
        seen.units, seen.slices, seen.full_windows
    );
    assert!(seen.units > 100 * RUNS && seen.full_windows > 100 * RUNS);
}

#[test]
fn the_plans_at_the_limits_are_in_time() {
    let mut generator = Generator::new(22);
    let mut seen = Seen::default();
    for plan in generate::limit_plans() {
        let (answer, state) = fresh(&plan);
        if answer.is_good() {
            run(
                state,
                Manner::Together,
                200,
                &mut generator,
                true,
                &mut seen,
            );
        }
    }
    assert!(seen.units > 0);
}

#[test]
fn a_busy_project_gets_its_budget_on_any_plan() {
    // Also on plans that are not admitted: the windows do not rest on the verdict.
    let mut generator = Generator::new(23);
    let mut seen = Seen::default();
    for _ in 0..RUNS / 2 {
        let plan = generator.good_plan();
        let state = generator.state_in_form(&plan);
        run(
            state,
            Manner::Together,
            200,
            &mut generator,
            false,
            &mut seen,
        );
    }
    println!("slices {}, full windows {}", seen.slices, seen.full_windows);
    assert!(seen.full_windows > 10 * RUNS);
}

/// Every state that any legal releases can reach, on a small admitted plan: none is late.
///
/// A kind never released is as one released T slices ago or more with none left; so the states are few.
fn sweep(plan: &Plan) -> usize {
    let (answer, start) = fresh(plan);
    assert_eq!(answer, Answer::GOOD);
    let mut start = start;
    for (i, kind) in plan.used_kinds().iter().enumerate() {
        start.kinds[i] = KindState {
            released: true,
            gone: kind.separation,
            left: 0,
        };
    }
    let mut known: HashSet<State> = HashSet::new();
    let mut open = vec![start];
    while let Some(state) = open.pop() {
        if !known.insert(state) {
            continue;
        }
        for (i, kind) in plan.used_kinds().iter().enumerate() {
            let gone = state.kinds[i].gone;
            assert!(
                gone < kind.deadline || state.kinds[i].left == 0,
                "kind {i} late in {plan:?}"
            );
        }
        // One more release, or a slice.
        for (i, kind) in plan.used_kinds().iter().enumerate() {
            for e in 1..=u64::from(kind.length) {
                let (answer, next) = release(&state, i as u64, e);
                if answer.is_good() {
                    open.push(next);
                } else {
                    assert_eq!(answer.number, 14);
                }
            }
        }
        let mut row = [0; 8];
        let (answer, next) = slice(&state, &mut row);
        assert_eq!(answer, Answer::GOOD);
        open.push(next);
    }
    known.len()
}

/// Every (T,D,C) with T up to `most`.
fn small_kinds(most: u16) -> Vec<(u8, u16, u16, u16)> {
    let mut kinds = Vec::new();
    for t in 1..=most {
        for d in 1..=t {
            for c in 1..=d {
                kinds.push((0, t, d, c));
            }
        }
    }
    kinds
}

#[test]
fn small_plans_swept_completely() {
    let (mut plans, mut admitted, mut states) = (0, 0, 0);
    let mut one = |plan: &Plan| {
        plans += 1;
        if verdict(plan).0.is_good() {
            admitted += 1;
            states += sweep(plan);
        }
    };
    for m in 1..=2u8 {
        for frame in 1..=3u8 {
            for q in 1..=m {
                for b in 1..=u16::from(q) * u16::from(frame) {
                    let kinds = small_kinds(4);
                    for &first in &kinds {
                        one(&Plan::of(m, frame, &[(q, b)], &[first]));
                        for &second in &kinds {
                            one(&Plan::of(m, frame, &[(q, b)], &[first, second]));
                        }
                    }
                    let kinds = small_kinds(3);
                    for (i, &first) in kinds.iter().enumerate() {
                        for (j, &second) in kinds.iter().enumerate().skip(i) {
                            for &third in &kinds[j..] {
                                one(&Plan::of(m, frame, &[(q, b)], &[third, second, first]));
                            }
                        }
                    }
                }
            }
        }
    }
    println!("plans {plans}, admitted {admitted}, states {states}");
    assert!(admitted > 500);
}
