//! The images by the offsets of the C header, the table of document 01, and what is printed of a difference.

use compare::faulty::{Fault, Faulty};
use compare::interface::*;
use compare::proved::Proved;
use compare::run::{records, Part, Tally};
use compare::second_side::Second;
use compare::table::table;
use second::{Kind, KindState, Plan, Project, State};

#[test]
fn a_plan_image_by_its_offsets() {
    let mut plan = Plan {
        m: 1,
        p: 2,
        n: 3,
        frame: 4,
        ..Plan::default()
    };
    plan.projects[7] = Project {
        ceiling: 5,
        budget: 0x0607,
    };
    plan.kinds[15] = Kind {
        project: 8,
        separation: 0x090A,
        deadline: 0x0B0C,
        length: 0x0D0E,
    };
    let mut image = [0; 140];
    image[..4].copy_from_slice(&[1, 2, 3, 4]);
    image[4 + 3 * 7..4 + 3 * 8].copy_from_slice(&[5, 6, 7]);
    image[28 + 7 * 15..].copy_from_slice(&[8, 9, 10, 11, 12, 13, 14]);
    assert_eq!(plan_image(&plan), image);
    assert_eq!(plan_of(&image), plan);
}

#[test]
fn a_state_image_by_its_offsets() {
    let mut state = State {
        plan: Plan::a(),
        slice: 0x04,
        ..State::default()
    };
    state.kinds[15] = KindState {
        released: true,
        gone: 0x0708,
        left: 0x090A,
    };
    state.sums[0] = 0x0B0C;
    state.sums[7] = 0x0D0E;
    let mut image = [0; 237];
    image[..140].copy_from_slice(&plan_image(&Plan::a()));
    image[140] = 4;
    image[141 + 5 * 15..221].copy_from_slice(&[1, 7, 8, 9, 10]);
    image[221..223].copy_from_slice(&[11, 12]);
    image[235..].copy_from_slice(&[13, 14]);
    assert_eq!(state_image(&state), image);
    assert_eq!(state_of(&image), Some(state));
    image[141 + 5 * 15] = 2;
    assert_eq!(state_of(&image), None);
}

#[test]
fn both_sides_give_the_table() {
    for row in table() {
        assert_eq!(row.case.run(&Second), row.expected, "{}", row.name);
        assert_eq!(row.case.run(&Proved), row.expected, "{}", row.name);
    }
}

#[test]
fn a_difference_is_found_made_small_and_printed_as_bytes() {
    let part = Part {
        fixed: false,
        generated: 20_000,
        one_in: 1,
        flips: 0,
        runs: 0,
        seed: 7,
    };
    let side = Faulty(Fault::Ties);
    let Some(found) = records(&side, part, &mut Tally::default()) else {
        panic!("ties not found");
    };
    let text = found.in_words(&side, "copy");
    let Some(line) = text.lines().find_map(|line| line.strip_prefix("  call ")) else {
        panic!("no call in {text}");
    };
    let Some(case) = Case::of_line(line) else {
        panic!("no call in {line}");
    };
    assert!(matches!(case.op, Op::Show | Op::Advance), "{text}");
    assert_ne!(case.run(&side), case.run(&Second));
    // Two kinds are enough for a tie.
    assert_eq!(case.given[2], 2, "{text}");
}

#[test]
fn the_old_rules_alone_find_what_a_run_can_show() {
    let part = Part {
        fixed: false,
        generated: 0,
        one_in: 1,
        flips: 0,
        runs: 40,
        seed: 7,
    };
    let found = |fault| records(&Faulty(fault), part, &mut Tally::default()).is_some();
    for fault in [
        Fault::GoneUnheld,
        Fault::GoneHeldAtD,
        Fault::GoneNever,
        Fault::ReleaseKeepsGone,
        Fault::RankByGone,
        Fault::RankOthersGone,
        Fault::SliceUnwrapped,
        Fault::FormAtT,
        Fault::ExactlyT,
        Fault::Early,
        Fault::Ties,
        Fault::Eleven,
        Fault::FifteenFirst,
        Fault::ServesNone,
    ] {
        assert!(found(fault), "{fault:?}");
    }
    // What no fresh start reaches no run shows.
    for fault in [Fault::Faultless, Fault::FormLate, Fault::FormSliceF] {
        assert!(!found(fault), "{fault:?}");
    }
}

#[test]
fn a_call_is_read_back_from_its_line() {
    let case = Case::release(vec![1, 0xAB], 3, u64::MAX);
    assert_eq!(case.line(), "release 01ab - - 3 18446744073709551615");
    assert_eq!(Case::of_line(&case.line()), Some(case));
    let case = Case::rescue(vec![1], vec![2], vec![3, 4]);
    assert_eq!(case.line(), "rescue 01 02 0304 0 0");
    assert_eq!(Case::of_line(&case.line()), Some(case));
    for wrong in [
        "",
        "show 0 - - 0 0",
        "show 0g - - 0 0",
        "none 00 - - 0 0",
        "show 00 - 0 0",
        "show 00 -",
    ] {
        assert_eq!(Case::of_line(wrong), None, "{wrong}");
    }
}
