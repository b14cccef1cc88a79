//! The tuned program gives what the second program gives, on fixed and generated records.

use bench::tuned;
use compare::interface::word;
use generate::{
    fixed_open_budgets, fixed_plan_records, fixed_state_records, fixed_streams, fixed_sums,
    Generator,
};
use second::{Plan, State};

#[test]
fn plans() {
    let mut g = Generator::new(51);
    let generated: Vec<Plan> = (0..500).map(|_| g.plan_record()).collect();
    for plan in fixed_plan_records().into_iter().chain(generated) {
        assert_eq!(
            tuned::check(&plan),
            word(second::check(&plan), 0),
            "{plan:?}"
        );
        let (answer, ks, slices) = second::verdict(&plan);
        let mut k = [7; 32];
        assert_eq!(tuned::verdict(&plan, &mut k), word(answer, 0), "{plan:?}");
        let expected = match answer.is_good() {
            true => [ks, slices].concat(),
            false => vec![7; 32],
        };
        assert_eq!(k[..], expected);
        let (answer, expected) = second::fresh(&plan);
        let mut state = State::default();
        assert_eq!(tuned::fresh(&plan, &mut state), word(answer, 0));
        assert_eq!(state, expected);
    }
}

#[test]
fn open_budgets() {
    let mut g = Generator::new(54);
    let mut generated = Vec::new();
    for _ in 0..100 {
        let plan = g.plan_record();
        generated.push((plan, g.project_number(&plan)));
    }
    for (plan, project) in fixed_open_budgets().into_iter().chain(generated) {
        let (answer, budget) = second::smallest_budget(&plan, project);
        assert_eq!(
            tuned::smallest_budget(&plan, project),
            word(answer, budget as usize),
            "{plan:?} {project}"
        );
    }
}

#[test]
fn bytes() {
    let mut g = Generator::new(52);
    let generated: Vec<_> = (0..500).map(|_| g.stream()).collect();
    for stream in fixed_streams().into_iter().chain(generated) {
        let (answer, expected, taken) = second::read(&stream.bytes);
        let mut plan = Plan::default();
        let found = tuned::read(&stream.bytes, &mut plan);
        assert_eq!(
            (found, plan),
            (word(answer, taken), expected),
            "{}",
            stream.name
        );
    }
}

#[test]
fn states() {
    let mut g = Generator::new(53);
    let generated: Vec<State> = (0..2000).map(|_| g.state_record()).collect();
    let fixed = fixed_state_records().into_iter().chain(fixed_sums());
    for state in fixed.chain(generated) {
        let (kind, e) = g.release_numbers(&state);
        let (answer, expected) = second::release(&state, kind, e);
        let mut next = state;
        assert_eq!(
            tuned::release(&mut next, kind, e),
            word(answer, 0),
            "{state:?}"
        );
        assert_eq!(next, expected);

        let lent = g.row_buffer(&state);
        let (mut row, mut other) = (lent.clone(), lent);
        let answer = second::show(&state, &mut other);
        assert_eq!(
            (tuned::show(&state, &mut row), row),
            (word(answer, 0), other),
            "{state:?}"
        );
        let (answer, expected) = second::advance(&state);
        let mut next = state;
        assert_eq!(tuned::advance(&mut next), word(answer, 0), "{state:?}");
        assert_eq!(next, expected);
    }
}
