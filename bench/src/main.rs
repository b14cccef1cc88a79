//! The proved library, the second program and a tuned one, timed in one run on the same inputs.

#![forbid(unsafe_code)]

use bench::inputs::{self, Command, Stream};
use bench::timing::{medians, Row, Table, FEW_TURNS, SIDES, TURNS};
use bench::tuned;
use compare::interface::{
    number, plan_image, state_image, Case, Op, Side, PLAN_IMAGE, STATE_IMAGE,
};
use compare::proved::Proved;
use compare::second_side::Second;
use second::bytes::pack;
use second::{Plan, State};
use std::hint::black_box;
use std::process::exit;

fn main() {
    println!("proved: the static library, images in and out. second: the second program, on the same images.");
    println!("tuned: the same rules in Rust, records in place. Nanoseconds are medians of {TURNS} turns of 1 ms,");
    println!("of {FEW_TURNS} turns where one call takes longer; the sides take turns. A state is copied in before each");
    println!("single slice, half of one or release; no other buffer is cleared or filled. All sides gave the same before they were timed.");
    if !bindings::LINKED {
        println!("\nTHE PROVED COLUMN SAYS NOTHING: the library cannot be linked here, an emulator makes its calls.");
    }

    let mut table = Table::new("reading a plan");
    for (name, plan) in [
        ("smallest, 10 bytes", inputs::smallest()),
        ("plan A, 22 bytes", Plan::a()),
        ("largest, 99 bytes", inputs::widest()),
    ] {
        table.add(read(name, &plan));
    }
    table.print();

    let mut table = Table::new("the verdict");
    for (name, plan) in [
        ("smallest: m 1, p 1, n 1, F 1, D 1", inputs::smallest()),
        ("typical: m 4, p 3, n 8, F 16, D to 240", inputs::typical()),
        (
            "largest: m 8, n 16, F 64, D 4095, k 8",
            inputs::only_at(8, 16, 64, 4095),
        ),
    ] {
        table.add(verdict(name.to_string(), &plan));
    }
    table.print();

    let mut table = Table::new(
        "the verdict by D mod F, q, F, D and n (m 8, p 1, B qF, each kind fits only at k = q)",
    );
    let judged = |q, n, frame, d| {
        let name = format!(
            "q {q}, n {n}, F {frame}, D {d} (mod F {})",
            d % u16::from(frame)
        );
        verdict(name, &inputs::only_at(q, n, frame, d))
    };
    table.add_grown([4032, 4033, 4048, 4064, 4080, 4095].map(|d| judged(8, 16, 64, d)));
    table.add_grown([1, 2, 4, 8].map(|q| judged(q, 16, 64, 4095)));
    table.add_grown([8, 16, 32, 64].map(|frame| judged(8, 16, frame, 4095)));
    table.add_grown([1023, 2047, 4095].map(|d| judged(8, 16, 64, d)));
    table.add_grown([4, 8, 16].map(|n| judged(8, n, 64, 4095)));
    table.print();

    let mut table = Table::new(
        "the smallest budget (the second program walks from 1 upward, the others halve)",
    );
    for (name, plan, project) in [
        ("plan A, project 1", Plan::a(), 1),
        ("typical, project 0", inputs::typical(), 0),
        ("largest: q 8, n 16, F 64, D 4095", inputs::open(4095), 0),
        ("the same, D 4032", inputs::open(4032), 0),
        ("the same, the last kind decides", inputs::open_last(), 0),
    ] {
        table.add(smallest(name, &plan, project));
    }
    table.print();

    let mut slices =
        Table::new("one slice, shown and advanced, all kinds active (m 8, p 1, q 8, B 8F)");
    for n in [1, 8, 16] {
        slices.add(slice(
            format!("n {n}, F 64"),
            &inputs::all_active(n, 64, 4095),
        ));
    }
    slices.print();

    let mut table = Table::new("its halves (as above)");
    for half in [Half::Show, Half::Advance] {
        for n in [1, 8, 16] {
            let name = format!("{}, n {n}, F 64", half.name());
            table.add(half_slice(name, half, &inputs::all_active(n, 64, 4095)));
        }
    }
    table.print();

    let mut table = Table::new("a release (as above, the last kind never released)");
    for n in [1, 8, 16] {
        let name = format!("n {n}, F 64");
        table.add(release(name, &inputs::last_due(n, 64, 4095)));
    }
    table.print();

    let mut table = Table::new("one slice by n, F and D (as above)");
    let sliced = |n, frame, d| {
        let name = format!("n {n}, F {frame}, D {d}");
        slice(name, &inputs::all_active(n, frame, d))
    };
    table.add_grown([4, 8, 16].map(|n| sliced(n, 64, 4095)));
    table.add_grown([16, 32, 64].map(|frame| sliced(16, frame, 4095)));
    table.add_grown([1023, 2046, 4092].map(|d| sliced(16, 64, d)));
    table.print();

    let stream = inputs::stream(20_000);
    let whole = long_stream(&stream);
    let mut table =
        Table::new("a long stream (m 8, p 4, n 16, F 16; each kind released as soon as it is due)");
    let (slices_run, releases) = (stream.slices, stream.releases);
    table.add(whole.per(
        format!("{slices_run} slices, {releases} releases, per call"),
        slices_run + releases,
    ));
    table.print();

    println!("\nslices per second");
    println!(
        "{:<42}{}",
        "",
        SIDES.map(|side| format!("{side:>11}")).join("")
    );
    let per_slice = whole.per("the long stream, with its releases".to_string(), slices_run);
    for row in slices.rows().chain([&per_slice]) {
        let figures = row.ns.map(|ns| format!("{:>11.0}", 1e9 / ns));
        println!("{:<42}{}", row.name, figures.join(""));
    }
}

/// Both sides must leave the same bytes, with a good answer, before they are timed.
fn agree(case: &Case) -> u64 {
    let (one, other) = (case.run(&Proved), case.run(&Second));
    stop_unless(one == other, "proved and second differ", &case.line());
    stop_unless(number(one.word) == 0, "refused", &case.line());
    one.word
}

fn stop_unless(good: bool, what: &str, line: &str) {
    if !good {
        eprintln!("bench: {what}: {line}");
        exit(1);
    }
}

/// What is computed is not left out for want of a use.
fn kept<T>(value: T) {
    black_box(value);
}

fn read(name: &str, plan: &Plan) -> Row {
    let bytes = pack(plan);
    let word = agree(&Case::new(Op::Read, bytes.clone(), vec![0; PLAN_IMAGE]));
    let mut own = Plan::default();
    let same = tuned::read(&bytes, &mut own) == word && own == *plan;
    stop_unless(same, "tuned differs", name);

    let (mut one, mut other) = ([0; PLAN_IMAGE], [0; PLAN_IMAGE]);
    medians(
        name.to_string(),
        [
            &mut || kept(Proved.read(black_box(&bytes), black_box(&mut one))),
            &mut || kept(Second.read(black_box(&bytes), black_box(&mut other))),
            &mut || kept(tuned::read(black_box(&bytes), black_box(&mut own))),
        ],
    )
}

fn verdict(name: String, plan: &Plan) -> Row {
    let image = plan_image(plan);
    let word = agree(&Case::new(Op::Verdict, image.to_vec(), vec![0; 32]));
    let (mut one, mut other, mut own) = ([0; 32], [0; 32], [0; 32]);
    let (_, k, slices) = second::verdict(plan);
    let same = tuned::verdict(plan, &mut own) == word && own[..] == [k, slices].concat();
    stop_unless(same, "tuned differs", &name);

    medians(
        name,
        [
            &mut || kept(Proved.verdict(black_box(&image), black_box(&mut one))),
            &mut || kept(Second.verdict(black_box(&image), black_box(&mut other))),
            &mut || kept(tuned::verdict(black_box(plan), black_box(&mut own))),
        ],
    )
}

fn smallest(name: &str, plan: &Plan, project: u64) -> Row {
    let image = plan_image(plan);
    let word = agree(&Case::smallest_budget(image.to_vec(), project));
    let same = tuned::smallest_budget(plan, project) == word;
    stop_unless(same, "tuned differs", name);

    medians(
        format!("{name}, B {}", word >> 16),
        [
            &mut || kept(Proved.smallest_budget(black_box(&image), black_box(project))),
            &mut || kept(Second.smallest_budget(black_box(&image), black_box(project))),
            &mut || kept(tuned::smallest_budget(black_box(plan), black_box(project))),
        ],
    )
}

/// A showing or an advance.
#[derive(Clone, Copy)]
enum Half {
    Show,
    Advance,
}

impl Half {
    fn name(self) -> &'static str {
        match self {
            Half::Show => "show",
            Half::Advance => "advance",
        }
    }
}

/// The sides agree on a slice: shown and advanced.
fn agree_on_slice(name: &str, state: &State) {
    let image = state_image(state).to_vec();
    agree(&Case::new(Op::Show, image.clone(), vec![0; 8]));
    agree(&Case::new(Op::Advance, image, Vec::new()));
    let mut own = *state;
    let (mut row, mut expected) = ([0; 8], [0; 8]);
    let next = second::slice(state, &mut expected).1;
    let good = tuned::show(state, &mut row) == 0 && tuned::advance(&mut own) == 0;
    let same = good && (own, row) == (next, expected);
    stop_unless(same, "tuned differs", name);
}

fn half_slice(name: String, half: Half, state: &State) -> Row {
    agree_on_slice(&name, state);
    let image = state_image(state);
    let through = |side: &dyn Side, running: &mut [u8; STATE_IMAGE], row: &mut [u8; 8]| {
        running.copy_from_slice(black_box(&image));
        kept(match half {
            Half::Show => side.show(black_box(running), black_box(row)),
            Half::Advance => side.advance(black_box(running)),
        });
    };
    let (mut one, mut other, mut own) = (image, image, *state);
    let (mut one_row, mut other_row, mut row) = ([0; 8], [0; 8], [0; 8]);
    medians(
        name,
        [
            &mut || through(&Proved, &mut one, &mut one_row),
            &mut || through(&Second, &mut other, &mut other_row),
            &mut || {
                own = *black_box(state);
                kept(match half {
                    Half::Show => tuned::show(black_box(&own), black_box(&mut row)),
                    Half::Advance => tuned::advance(black_box(&mut own)),
                });
            },
        ],
    )
}

/// A release of the last kind.
fn release(name: String, state: &State) -> Row {
    let (kind, e) = (u64::from(state.plan.n) - 1, 100);
    let image = state_image(state);
    agree(&Case::release(image.to_vec(), kind, e));
    let mut own = *state;
    let same = tuned::release(&mut own, kind, e) == 0 && own == second::release(state, kind, e).1;
    stop_unless(same, "tuned differs", &name);
    let through = |side: &dyn Side, running: &mut [u8; STATE_IMAGE]| {
        running.copy_from_slice(black_box(&image));
        kept(side.release(black_box(running), black_box(kind), black_box(e)));
    };
    let (mut one, mut other) = (image, image);
    medians(
        name,
        [
            &mut || through(&Proved, &mut one),
            &mut || through(&Second, &mut other),
            &mut || {
                own = *black_box(state);
                kept(tuned::release(
                    black_box(&mut own),
                    black_box(kind),
                    black_box(e),
                ));
            },
        ],
    )
}

fn slice(name: String, state: &State) -> Row {
    agree_on_slice(&name, state);
    let image = state_image(state);
    let (mut own, mut row) = (*state, [0; 8]);
    let through = |side: &dyn Side, running: &mut [u8; STATE_IMAGE], row: &mut [u8; 8]| {
        running.copy_from_slice(black_box(&image));
        kept(side.show(black_box(running), black_box(row)));
        kept(side.advance(black_box(running)));
    };
    let (mut one, mut other) = (image, image);
    let (mut one_row, mut other_row) = (row, row);
    medians(
        name,
        [
            &mut || through(&Proved, &mut one, &mut one_row),
            &mut || through(&Second, &mut other, &mut other_row),
            &mut || {
                own = *black_box(state);
                kept(tuned::show(black_box(&own), black_box(&mut row)));
                kept(tuned::advance(black_box(&mut own)));
            },
        ],
    )
}

/// The whole stream from its fresh start; every answer must be good, all ends and all rows the same.
fn long_stream(stream: &Stream) -> Row {
    let through = |side: &dyn Side| {
        let mut state = state_image(&stream.start);
        let played = played(
            stream,
            &mut state,
            |state, kind, e| side.release(state, kind, e),
            |state, row| side.show(state, row) | side.advance(state),
        );
        (state, played)
    };
    let tuned = || {
        let mut state = stream.start;
        let slice =
            |state: &mut State, row: &mut [u8]| tuned::show(state, row) | tuned::advance(state);
        let played = played(stream, &mut state, tuned::release, slice);
        (state_image(&state), played)
    };
    let proved = through(&Proved);
    let same = proved == through(&Second) && proved == tuned();
    stop_unless(same, "the sides differ", "the long stream");
    let (_, (_, refused)) = proved;
    stop_unless(!refused, "refused", "the long stream");
    medians(
        "a long stream".to_string(),
        [
            &mut || kept(through(&Proved)),
            &mut || kept(through(&Second)),
            &mut || kept(tuned()),
        ],
    )
}

/// Plays the stream in place: the rows in one number, and whether a call was refused.
fn played<S>(
    stream: &Stream,
    state: &mut S,
    release: impl Fn(&mut S, u64, u64) -> u64,
    slice: impl Fn(&mut S, &mut [u8]) -> u64,
) -> (u64, bool) {
    let mut row = [0; 8];
    let (mut rows, mut refused) = (0u64, false);
    for command in &stream.commands {
        let word = match *command {
            Command::Release(kind, e) => release(state, kind, e),
            Command::Slice => {
                let word = slice(state, &mut row);
                rows = rows.rotate_left(1) ^ u64::from_be_bytes(row);
                word
            }
        };
        refused |= number(word) != 0;
    }
    (rows, refused)
}
