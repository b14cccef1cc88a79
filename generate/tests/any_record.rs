//! The second program on any record and any bytes: it answers, in the right order, and leaves behind what it should.

use generate::{
    fixed_damage, fixed_plan_records, fixed_state_records, fixed_streams, fixed_sums, Generator,
};
use second::rack::in_form;
use second::*;

/// Fewer runs where the program is built without speed.
const RUNS: u64 = if cfg!(debug_assertions) { 100 } else { 1200 };

fn refused(number: u64, place: u64) -> Answer {
    Answer {
        number,
        place,
        ..Answer::GOOD
    }
}

/// "place" of the table: only 4, 5, 6 and 8 have one; "Excess is 0 except with 8", and so is its slice.
fn well_made(answer: Answer, plan: &Plan) {
    match answer.number {
        4 => assert!(answer.place < u64::from(plan.p)),
        5 | 6 | 8 => assert!(answer.place < u64::from(plan.n)),
        _ => assert_eq!(answer.place, 0),
    }
    assert_eq!(answer.excess > 0, answer.number == 8);
    assert!(answer.slice == 0 || answer.number == 8 && answer.slice < u64::from(plan.frame));
}

#[test]
fn any_plan_record_is_answered() {
    let mut generator = Generator::new(11);
    let random: Vec<Plan> = (0..RUNS).map(|_| generator.plan_record()).collect();
    for plan in fixed_plan_records().into_iter().chain(random) {
        let answer = check(&plan);
        well_made(answer, &plan);

        let (told, k, slices) = verdict(&plan);
        well_made(told, &plan);
        if !answer.is_good() {
            assert_eq!(told, answer);
        }
        for (i, k) in k.into_iter().enumerate() {
            let has_k = told.is_good() && i < usize::from(plan.n);
            assert_eq!(k > 0, has_k);
            assert!(slices[i] == 0 || has_k && slices[i] < plan.frame);
            if has_k {
                assert!(k <= plan.projects[usize::from(plan.kinds[i].project)].ceiling);
            }
        }
        let (started, state) = fresh(&plan);
        assert_eq!(started, told);
        let empty = State {
            plan,
            ..State::default()
        };
        assert_eq!(
            state,
            if told.is_good() {
                empty
            } else {
                State::default()
            }
        );

        let lent = generator.write_buffer(&plan);
        let mut buffer = lent.clone();
        let (told, count) = write(&plan, &mut buffer);
        let needed = bytes::plan_bytes(plan.p, plan.n);
        lent_rules(answer, needed, told, count, &lent, &buffer);
        if told.is_good() {
            assert_eq!(read(&buffer), (Answer::GOOD, plan, needed));
        }

        let lent = generator.table_buffer(&plan);
        let mut buffer = lent.clone();
        let (told, count) = slot_table(&plan, &mut buffer);
        let needed = usize::from(plan.m) * usize::from(plan.frame);
        lent_rules(answer, needed, told, count, &lent, &buffer);
        if told.is_good() {
            // "Project 0 takes the first B cells, project 1 the next, and so on. What is left is free."
            let mut cells = Vec::new();
            for (number, project) in plan.used_projects().iter().enumerate() {
                cells.extend(vec![number as u8 + 1; usize::from(project.budget)]);
            }
            cells.resize(needed, 0);
            assert_eq!(buffer[..needed], cells);
            // "So a project holds at slice s either floor(B/F) or that plus one card, never more than q."
            for (number, project) in plan.used_projects().iter().enumerate() {
                let floor = u64::from(project.budget) / u64::from(plan.frame);
                for held in layout::h(&plan, number) {
                    assert!(
                        (held == floor || held == floor + 1) && held <= u64::from(project.ceiling)
                    );
                }
            }
        }
    }
}

/// "Lent buffers keep every byte on a refusal. On success, bytes past those needed keep their value."
fn lent_rules(order: Answer, needed: usize, told: Answer, count: usize, lent: &[u8], after: &[u8]) {
    let expected = match order.is_good() {
        true if lent.len() < needed => refused(9, 0),
        _ => order,
    };
    assert_eq!(told, expected);
    assert_eq!(count, if told.is_good() { needed } else { 0 });
    assert_eq!(lent[count..], after[count..]);
}

/// "Ranking is by slices left until the deadline, with the same tie rule"; "the first h of them take that project's cards in ascending
/// card order".
fn row_rules(state: &State, row: &[u8]) {
    let plan = &state.plan;
    let frame = usize::from(plan.frame);
    let mut table = vec![0; usize::from(plan.m) * frame];
    assert_eq!(slot_table(plan, &mut table).0, Answer::GOOD);
    let now = usize::from(state.slice);
    let rank = |i: usize| (plan.kinds[i].deadline - state.kinds[i].gone, i);
    let mut idle_or_free = row.iter().filter(|&&byte| byte == 0).count();
    for project in 0..usize::from(plan.p) {
        // The project's cards at this slice, read off the slot table card by card.
        let cards: Vec<usize> = (0..usize::from(plan.m))
            .filter(|card| usize::from(table[card * frame + now]) == project + 1)
            .collect();
        let mut waiting: Vec<usize> = (0..usize::from(plan.n))
            .filter(|&i| usize::from(plan.kinds[i].project) == project && state.kinds[i].left > 0)
            .collect();
        for card in cards {
            // The best of those that wait, found by looking at each.
            let Some(best) = waiting.iter().copied().min_by_key(|&i| rank(i)) else {
                assert_eq!(row[card], 0, "an unused card stays idle");
                idle_or_free -= 1;
                continue;
            };
            assert_eq!(usize::from(row[card]), best + 1);
            waiting.retain(|&i| i != best);
        }
    }
    // The other zeros are free cells.
    let free = (0..usize::from(plan.m))
        .filter(|card| table[card * frame + now] == 0)
        .count();
    assert_eq!(idle_or_free, free);
}

#[test]
fn any_state_record_is_answered() {
    let mut generator = Generator::new(12);
    let random: Vec<State> = (0..RUNS).map(|_| generator.state_record()).collect();
    let fixed = fixed_state_records().into_iter().chain(fixed_sums());
    for state in fixed.chain(random) {
        let plan = state.plan;
        let mut order = check(&plan);
        if order.is_good() && !in_form(&state) {
            order = refused(10, 0);
        }
        // "16, directly after 10".
        if order.is_good() && state.summed() != state {
            order = refused(16, 0);
        }

        let (kind, e) = generator.release_numbers(&state);
        let (told, next) = release(&state, kind, e);
        well_made(told, &plan);
        // "11 and 15 are retired"; a kind with work left is refused by 14 at the latest.
        assert!(![11, 15].contains(&told.number));
        if let Some(place) = state.kinds.get(kind as usize) {
            assert!(place.left == 0 || !told.is_good());
        }
        if !order.is_good() {
            assert_eq!(told, order);
        }
        let mut expected = state;
        if told.is_good() {
            expected.kinds[kind as usize] = KindState {
                released: true,
                gone: 0,
                left: e as u16,
            };
            assert!(in_form(&next));
        }
        assert_eq!(
            next,
            if told.is_good() {
                expected.summed()
            } else {
                state
            }
        );

        let lent = generator.row_buffer(&state);
        let mut buffer = lent.clone();
        let told = show(&state, &mut buffer);
        let (advanced, next) = advance(&state);
        well_made(told, &plan);
        assert!(![told.number, advanced.number].contains(&11));
        if !order.is_good() {
            assert_eq!(told, order);
        }
        // "advancing drops 9".
        match told.number {
            9 => assert_eq!(advanced, Answer::GOOD),
            _ => assert_eq!(advanced, told),
        }
        if told.is_good() {
            let m = usize::from(plan.m);
            assert_eq!(buffer[m..], lent[m..]);
            let mut expected = State {
                slice: if state.slice + 1 < plan.frame {
                    state.slice + 1
                } else {
                    0
                },
                ..state
            };
            for (place, kind) in expected.kinds.iter_mut().zip(plan.used_kinds()) {
                place.gone = (place.gone + u16::from(place.released)).min(kind.separation);
            }
            for byte in &buffer[..m] {
                if *byte > 0 {
                    expected.kinds[usize::from(*byte) - 1].left -= 1;
                }
            }
            assert_eq!(next, expected.summed());
            // Out of form only where a unit is late, and so on no plan that is admitted and from its fresh start.
            let late = (0..usize::from(plan.n))
                .any(|i| next.kinds[i].left > 0 && next.kinds[i].gone >= plan.kinds[i].deadline);
            assert_eq!(in_form(&next), !late);
            row_rules(&state, &buffer[..m]);
        } else {
            assert_eq!(buffer, lent);
            assert!(next == state || advanced.is_good());
        }
    }
}

#[test]
fn any_bytes_are_read() {
    let mut generator = Generator::new(13);
    let fixed = fixed_streams();
    let random: Vec<_> = (0..RUNS / 2).map(|_| generator.stream()).collect();
    for stream in fixed.iter().chain(&random) {
        let (answer, plan, taken) = read(&stream.bytes);
        if answer.is_good() {
            assert_eq!(check(&plan), Answer::GOOD);
            assert_eq!(taken, bytes::plan_bytes(plan.p, plan.n));
            assert!(taken <= bytes::MOST_BYTES);
            // What is read is written back the same, and what follows is not looked at.
            let mut buffer = vec![0; taken];
            assert_eq!(write(&plan, &mut buffer), (Answer::GOOD, taken));
            assert_eq!(buffer, stream.bytes[..taken]);
            assert_eq!(read(&stream.bytes[..taken]), (Answer::GOOD, plan, taken));
            assert_eq!(read(&stream.bytes[..taken - 1]).0, refused(1, 0));
        } else {
            assert_eq!((plan, taken), (Plan::default(), 0));
            assert!((1..=7).contains(&answer.number));
            assert_eq!(answer.excess, 0);
        }
    }
}

#[test]
fn any_damage_is_rescued() {
    let mut generator = Generator::new(14);
    let mut random = Vec::new();
    for _ in 0..RUNS {
        let plan = generator.good_plan();
        random.extend((0..8).map(|_| generator.damaged(&plan)));
    }
    let (mut rescued, mut changes) = (0, 0);
    for damaged in fixed_damage().into_iter().chain(random) {
        let mut list = [0xEE; 342];
        let (answer, plan, count) = rescue(&damaged, &mut list);
        assert_eq!(list[count..], [0xEE; 342][count..]);
        let told = read(&damaged).0;
        if !answer.is_good() {
            // "1 and 2 as in reading; 20 when no kind remains".
            assert_eq!((plan, count), (Plan::default(), 0));
            assert!(answer == refused(20, 0) || answer == told && matches!(told.number, 1 | 2));
            continue;
        }
        // "gives a plan that passes 2 to 6".
        assert!(matches!(check(&plan).number, 0 | 7));
        // "A plan already in order gives an empty list".
        assert_eq!(count == 0, matches!(told.number, 0 | 7));
        // "rescuing the result's bytes (7 or not) changes nothing".
        let result = bytes::pack(&plan);
        assert_eq!(rescue(&result, &mut []), (Answer::GOOD, plan, 0));
        // "the list applied to the original gives the result".
        assert_eq!(rescue::applied(&damaged, &list[..count]), Some(result));
        rescued += 1;
        changes += count / 6;
    }
    println!("rescued {rescued}, changes {changes}");
}
