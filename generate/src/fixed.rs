//! Fixed streams and records: each refusal number at each place it can have, and each limit.

use crate::streams::flip;
use crate::{release_bytes, spare_bits, Stream, SLICE};
use second::bytes::pack;
use second::plan::{Kind, Plan, Project};
use second::rack::{KindState, State};
use second::smallest_budget;

/// Plans at both ends of m, p, n, F, q, B, T, D and C; some are admitted, others are refused by 7 or 8.
pub fn limit_plans() -> Vec<Plan> {
    let mut plans = Vec::new();
    for m in [1u8, 8] {
        for p in [1u8, 8] {
            for n in [1u8, 16] {
                for frame in [1u8, 64] {
                    for q in [1, m] {
                        // The least budget, and as much as q or the other projects allow.
                        let cells = u16::from(m) * u16::from(frame);
                        let most = (u16::from(q) * u16::from(frame))
                            .min(cells / u16::from(p))
                            .max(1);
                        for b in [1, most] {
                            for (t, d, c) in
                                [(1, 1, 1), (4095, 4095, 4095), (4095, 4095, 1), (4095, 1, 1)]
                            {
                                let projects = vec![(q, b); usize::from(p)];
                                let kinds: Vec<_> = (0..n).map(|j| (j % p, t, d, c)).collect();
                                plans.push(Plan::of(m, frame, &projects, &kinds));
                            }
                        }
                    }
                }
            }
        }
    }
    // The widest budget, 8 * 64, alone; with one kind, and with sixteen that use all of it.
    plans.push(Plan::of(8, 64, &[(8, 512)], &[(0, 4095, 4095, 4095)]));
    plans.push(Plan::of(8, 64, &[(8, 512)], &[(0, 64, 64, 28); 16]));
    plans.push(Plan::of(8, 64, &[(1, 64); 8], &[(7, 1, 1, 1)]));
    plans
}

/// A wide plan that is admitted: eight cards, `p` projects, sixteen kinds, frame 8.
pub(crate) fn wide_plan(p: u8) -> Plan {
    let kinds: Vec<_> = (0..16u8)
        .map(|j| (j % p, 60 + u16::from(j), 50 + u16::from(j), 1))
        .collect();
    Plan::of(8, 8, &vec![(2, 7); usize::from(p)], &kinds)
}

/// A plan whose first kind with no k is `place`: it stands alone in a project that cannot carry it.
fn refused_at(n: u8, place: u8, c: u16) -> Plan {
    let kinds: Vec<_> = (0..n)
        .map(|j| {
            if j == place {
                (1, 40, 30, c)
            } else {
                (0, 200, 190, 2)
            }
        })
        .collect();
    Plan::of(2, 4, &[(1, 4), (2, 2)], &kinds)
}

/// Named plans that bytes can express: each number from 4 to 8 at each place it can have, alone and with more wrong.
fn fixed_plans() -> Vec<(String, Plan)> {
    let mut plans: Vec<(String, Plan)> = Vec::new();
    let a = Plan::a();
    plans.push(("plan A".to_string(), a));
    plans.push(("plan B".to_string(), Plan::b()));

    // 4: at each project, alone and with every later thing wrong.
    for m in [2u8, 7, 8] {
        for place in 0..8usize {
            for (name, project) in [
                (
                    "q 0",
                    Project {
                        ceiling: 0,
                        budget: 1,
                    },
                ),
                (
                    "q m+1",
                    Project {
                        ceiling: m + 1,
                        budget: 1,
                    },
                ),
                (
                    "q 15",
                    Project {
                        ceiling: 15,
                        budget: 1,
                    },
                ),
                (
                    "B 0",
                    Project {
                        ceiling: m,
                        budget: 0,
                    },
                ),
                (
                    "B qF+1",
                    Project {
                        ceiling: 1,
                        budget: 9,
                    },
                ),
                (
                    "B mF+1",
                    Project {
                        ceiling: m,
                        budget: u16::from(m) * 8 + 1,
                    },
                ),
                (
                    "B qF",
                    Project {
                        ceiling: 1,
                        budget: 8,
                    },
                ),
                (
                    "q m",
                    Project {
                        ceiling: m,
                        budget: 1,
                    },
                ),
            ] {
                let mut plan = wide_plan(8);
                plan.m = m;
                plan.projects = [Project {
                    ceiling: 1,
                    budget: 1,
                }; 8];
                plan.projects[place] = project;
                plans.push((format!("project {place}: {name}"), plan));
                plan.projects[7].budget = 1023;
                plan.kinds[0] = Kind::default();
                plans.push((format!("project {place}: {name}, and more"), plan));
            }
        }
    }

    // 5 and 6: at each kind, alone, and with more wrong at later kinds and in the sum.
    for p in [1u8, 4, 7] {
        for place in 0..16usize {
            for (name, kind) in [
                (
                    "project p",
                    Kind {
                        project: p,
                        separation: 9,
                        deadline: 9,
                        length: 1,
                    },
                ),
                (
                    "project 7",
                    Kind {
                        project: 7,
                        separation: 9,
                        deadline: 9,
                        length: 1,
                    },
                ),
                (
                    "project 7 and C 0",
                    Kind {
                        project: 7,
                        separation: 9,
                        deadline: 9,
                        length: 0,
                    },
                ),
                (
                    "C 0",
                    Kind {
                        project: 0,
                        separation: 9,
                        deadline: 9,
                        length: 0,
                    },
                ),
                (
                    "C above D",
                    Kind {
                        project: 0,
                        separation: 9,
                        deadline: 8,
                        length: 9,
                    },
                ),
                (
                    "D above T",
                    Kind {
                        project: 0,
                        separation: 8,
                        deadline: 9,
                        length: 1,
                    },
                ),
                (
                    "D 0",
                    Kind {
                        project: 0,
                        separation: 9,
                        deadline: 0,
                        length: 1,
                    },
                ),
                (
                    "T 0",
                    Kind {
                        project: 0,
                        separation: 0,
                        deadline: 9,
                        length: 1,
                    },
                ),
                ("all zero", Kind::default()),
                (
                    "C above D above T",
                    Kind {
                        project: 0,
                        separation: 1,
                        deadline: 2,
                        length: 4095,
                    },
                ),
            ] {
                let mut plan = wide_plan(p);
                plan.kinds[place] = kind;
                plans.push((format!("kind {place}: {name}"), plan));
                if place < 15 {
                    plan.kinds[place + 1].project = 7;
                    plan.kinds[15].length = 0;
                    plan.projects[0] = Project {
                        ceiling: 8,
                        budget: 64,
                    };
                    plans.push((format!("kind {place}: {name}, and more"), plan));
                }
            }
        }
    }

    // 7: one cell too many, exactly all cells, and 7 before 8.
    for (first, second) in [(3, 6), (5, 5), (4, 4), (4, 5), (1, 8), (1, 7), (3, 5)] {
        let mut plan = a;
        plan.projects[0].budget = first;
        plan.projects[1].budget = second;
        plans.push((format!("budgets {first} and {second}"), plan));
        plan.kinds[0].length = 8;
        plans.push((
            format!("budgets {first} and {second}, and kind 0 too long"),
            plan,
        ));
    }

    // 8: at each kind, with each excess up to a few, for each n.
    for n in 1..=16u8 {
        for place in 0..n {
            for c in [14, 15, 16, 17, 18, 30] {
                plans.push((
                    format!("n {n}, kind {place} with C {c}"),
                    refused_at(n, place, c),
                ));
            }
        }
    }

    // The numbers of the proved table that are plans.
    let mut p6 = a;
    p6.kinds[0].length = 7;
    plans.push(("P6".to_string(), p6));
    for c in [2, 3] {
        let mut p7 = a;
        p7.kinds[0] = Kind {
            project: 0,
            separation: 4,
            deadline: 3,
            length: c,
        };
        plans.push((format!("P7 with C {c}"), p7));
    }
    plans.push((
        "P9".to_string(),
        Plan::of(2, 1, &[(2, 2)], &[(0, 3, 3, 2), (0, 6, 6, 4), (0, 6, 6, 3)]),
    ));
    plans
}

/// Each refusal number at each place it can have, each limit, each cut, each spare bit and each bad command.
pub fn fixed_streams() -> Vec<Stream> {
    let mut streams: Vec<Stream> = Vec::new();
    let mut add = |name: String, bytes: Vec<u8>| streams.push(Stream { name, bytes });
    let a = Plan::a();
    let after = [release_bytes(0, 1), SLICE, SLICE].concat();

    // 01's own example, and Plan B.
    let mut example = pack(&a);
    for (kind, e) in [(0, 6), (1, 2), (2, 2)] {
        example.extend(release_bytes(kind, e));
    }
    example.extend(SLICE.repeat(4));
    example.extend(release_bytes(1, 2));
    example.extend(release_bytes(2, 1));
    add("the example of 01".to_string(), example.clone());
    let mut b = pack(&Plan::b());
    for (kind, e) in [(0, 1), (1, 3), (2, 2)] {
        b.extend(release_bytes(kind, e));
    }
    b.extend(SLICE.repeat(9));
    add("plan B".to_string(), b);

    // 1: every cut of the example, of a wide plan and of the shortest plan.
    let shortest = Plan::of(1, 1, &[(1, 1)], &[(0, 1, 1, 1)]);
    for whole in [example, pack(&wide_plan(8)), pack(&shortest)] {
        for count in 0..=whole.len() {
            add(format!("cut to {count}"), whole[..count].to_vec());
        }
    }

    // 2: every value out of range, as three bytes and with more behind.
    let mut bad_headers: Vec<(&str, Plan)> = Vec::new();
    for value in 0..128u8 {
        if value < 16 && !(1..=8).contains(&value) {
            bad_headers.push(("m", Plan { m: value, ..a }));
            bad_headers.push(("p", Plan { p: value, ..a }));
        }
        if value < 32 && !(1..=16).contains(&value) {
            bad_headers.push(("n", Plan { n: value, ..a }));
        }
        if !(1..=64).contains(&value) {
            bad_headers.push(("F", Plan { frame: value, ..a }));
        }
    }
    for (name, plan) in bad_headers {
        let mut bytes = pack(&plan);
        add(
            format!("{name} out of range, three bytes"),
            bytes[..3].to_vec(),
        );
        bytes.resize(300, 0);
        add(format!("{name} out of range"), bytes.clone());
        flip(&mut bytes, 23);
        add(format!("{name} out of range, and a spare bit"), bytes);
    }

    // 3: every spare bit, alone, with the first project also wrong, and one byte short.
    for p in [1, 7, 8] {
        let plan = wide_plan(p);
        let mut wrong = plan;
        wrong.projects[0].ceiling = 0;
        for bit in spare_bits(&plan) {
            for (name, plan) in [("", &plan), (", and 4", &wrong)] {
                let mut bytes = pack(plan);
                flip(&mut bytes, bit as usize);
                add(
                    format!("spare bit {bit}{name}, one byte short"),
                    bytes[..bytes.len() - 1].to_vec(),
                );
                bytes.extend(&after);
                add(format!("spare bit {bit}{name}"), bytes);
            }
        }
    }

    // 4 to 8.
    for (name, plan) in fixed_plans() {
        add(name, [pack(&plan), after.clone()].concat());
    }

    // The limits, each with a few commands: all kinds released at their length, two frames.
    for plan in limit_plans() {
        let mut bytes = pack(&plan);
        for (kind, place) in plan.used_kinds().iter().enumerate() {
            bytes.extend(release_bytes(kind as u64, u64::from(place.length)));
        }
        bytes.extend(SLICE.repeat(2 * usize::from(plan.frame) + 1));
        bytes.extend(release_bytes(0, 1));
        add("limits".to_string(), bytes);
    }

    // Commands: every bit of a slice, every low bit of a release, every kind, every edge of e.
    for bit in 0..24 {
        let mut bytes = SLICE;
        flip(&mut bytes, bit);
        add(
            format!("slice with bit {bit}"),
            [pack(&a), SLICE.to_vec(), bytes.to_vec(), SLICE.to_vec()].concat(),
        );
    }
    for bit in 17..24 {
        let mut bytes = release_bytes(1, 2);
        flip(&mut bytes, bit);
        add(
            format!("release with bit {bit}"),
            [pack(&a), SLICE.to_vec(), bytes.to_vec(), SLICE.to_vec()].concat(),
        );
    }
    for byte in 0..=255u8 {
        add(
            format!("byte {byte} left over"),
            [pack(&a), SLICE.to_vec(), vec![byte]].concat(),
        );
        add(
            format!("bytes {byte} and 0 left over"),
            [pack(&a), SLICE.to_vec(), vec![byte, 0]].concat(),
        );
        add(
            format!("command of byte {byte}"),
            [pack(&a), vec![byte; 3], SLICE.to_vec()].concat(),
        );
    }
    for n in 1..=16u8 {
        let plan = Plan::of(1, 1, &[(1, 1)], &vec![(0, 40, 40, 2); usize::from(n)]);
        let mut bytes = pack(&plan);
        for kind in 0..16 {
            for e in [0, 3, 4095, 1, 2, 2] {
                bytes.extend(release_bytes(kind, e));
            }
        }
        bytes.extend(SLICE.repeat(40));
        for kind in (0..16).rev() {
            bytes.extend(release_bytes(kind, 2));
        }
        bytes.extend(SLICE.repeat(3));
        add(format!("every kind and e, n {n}"), bytes);
    }

    // 14: T - 1 slices after the last release, then T; 13 comes before 14, and 12 before 13.
    for t in [1u16, 2, 3, 8, 64, 100, 4095] {
        let plan = Plan::of(1, 1, &[(1, 1)], &[(0, t, t, 1)]);
        let mut bytes = [pack(&plan), SLICE.to_vec(), release_bytes(0, 1).to_vec()].concat();
        bytes.extend(SLICE.repeat(usize::from(t) - 1));
        for (kind, e) in [(0, 1), (0, 0), (0, 2), (1, 0), (0, 1)] {
            bytes.extend(release_bytes(kind, e));
        }
        bytes.extend(SLICE);
        bytes.extend(release_bytes(0, 1));
        bytes.extend(release_bytes(0, 1));
        add(format!("T {t}"), bytes);
    }
    streams
}

/// Plan records for each number from 2 to 8 at each place it can have, also those that no bytes can express.
pub fn fixed_plan_records() -> Vec<Plan> {
    let mut plans: Vec<Plan> = fixed_plans().into_iter().map(|(_, plan)| plan).collect();
    plans.extend(limit_plans());
    plans.push(Plan::default());

    // 2: each field at its ends and beyond them.
    for base in [Plan::a(), wide_plan(8)] {
        for value in [0, 1, 8, 9, 15, 16, 17, 31, 32, 64, 65, 127, 128, 254, 255] {
            plans.push(Plan { m: value, ..base });
            plans.push(Plan { p: value, ..base });
            plans.push(Plan { n: value, ..base });
            plans.push(Plan {
                frame: value,
                ..base
            });
        }
    }

    // 3: each field of each unused place; and the same places in use, where 4, 5, 6 or 7 may be told instead.
    for (p, n) in [(1, 1), (1, 16), (8, 1), (7, 15), (8, 16)] {
        let mut base = wide_plan(p);
        base.n = n;
        for place in usize::from(n)..16 {
            base.kinds[place] = Kind::default();
        }
        for value in [1, 255] {
            for place in 0..8 {
                let mut plan = base;
                plan.projects[place].ceiling = value as u8;
                plans.push(plan);
                let mut plan = base;
                plan.projects[place].budget = value << 8 | value;
                plans.push(plan);
            }
            for place in 0..16 {
                let mut plan = base;
                plan.kinds[place].project = value as u8;
                plans.push(plan);
                let mut plan = base;
                plan.kinds[place].separation = value << 8;
                plans.push(plan);
                let mut plan = base;
                plan.kinds[place].deadline = value << 8;
                plans.push(plan);
                let mut plan = base;
                plan.kinds[place].length = value << 8;
                plans.push(plan);
            }
        }
    }

    // 4, 5 and 6 with values wider than their bits: their low bits alone would be in range.
    for place in 0..8 {
        for (ceiling, budget) in [(16 + 2, 7), (2, 1024 + 7), (2, 65535), (255, 65535)] {
            let mut plan = wide_plan(8);
            plan.projects[place] = Project { ceiling, budget };
            plans.push(plan);
        }
    }
    for place in 0..16 {
        for (project, t, d, c) in [
            (8, 60, 50, 1),
            (255, 60, 50, 1),
            (0, 4096, 50, 1),
            (0, 4096, 4096, 4096),
            (0, 65535, 65535, 65535),
            (0, 4096 + 60, 50, 1),
            (0, 60, 4096 + 50, 1),
            (0, 60, 50, 4096 + 1),
        ] {
            let mut plan = wide_plan(7);
            plan.kinds[place] = Kind {
                project,
                separation: t,
                deadline: d,
                length: c,
            };
            plans.push(plan);
        }
    }
    plans
}

/// A plan and a project whose budget is left open: each refusal of the smallest budget at each place it can have, each boundary.
pub fn fixed_open_budgets() -> Vec<(Plan, u64)> {
    let mut open = Vec::new();
    let a = Plan::a();

    // 27, beside 2 and 3, which come before it, and 4, which comes after it.
    let (mut unused, mut ceiling) = (a, a);
    unused.kinds[15].length = 1;
    ceiling.projects[0].ceiling = 0;
    for plan in [a, Plan { m: 9, ..a }, unused, ceiling, wide_plan(8)] {
        for project in [0, 1, 2, 3, 7, 8, 9, 15, 16, 255] {
            open.push((plan, project));
        }
        // Below p only if no more than the low bits are looked at.
        for project in [256, 257, 1 << 16, 1 << 32, (1 << 32) + 1, u64::MAX] {
            open.push((plan, project));
        }
    }

    // 4 at each project, with each project open: of the open one the ceiling counts and the budget does not.
    for (ceiling, budget) in [
        (0, 1),
        (9, 1),
        (255, 1),
        (2, 0),
        (2, 17),
        (2, 16),
        (1, 9),
        (8, 1024),
        (0, 65535),
    ] {
        for place in 0..8 {
            let mut plan = wide_plan(8);
            plan.projects[place] = Project { ceiling, budget };
            for project in 0..8 {
                open.push((plan, project));
            }
            // And with a later kind wrong as well.
            plan.kinds[9].length = 0;
            open.push((plan, place as u64));
        }
    }

    // 5 and 6 at each kind, of the open project and of another.
    for place in 0..16 {
        for (project, length) in [(8, 1), (255, 0), (0, 0), (0, 99)] {
            let mut plan = wide_plan(8);
            plan.kinds[place].project = project;
            plan.kinds[place].length = length;
            open.extend([(plan, 0), (plan, 7)]);
        }
    }

    // 8 at each kind of the open project, the others' kinds before, between and after; from a fit at half its cells to none at all.
    for n in 2..=16u8 {
        for place in 0..n - 1 {
            let partner = place + 1 + (place + n) % (n - 1 - place);
            for c in [1, 7, 15, 16, 20, 21, 22, 30] {
                let kind = |j| match j == place || j == partner {
                    true => (1, 40, 30, c),
                    // At no budget do these fit, so to judge them is seen.
                    false => (0, 200, 190, 190),
                };
                let kinds: Vec<_> = (0..n).map(kind).collect();
                open.push((Plan::of(3, 4, &[(1, 1), (2, 3)], &kinds), 1));
            }
        }
    }

    // The same where a kind before it fits.
    for n in 2..=16u8 {
        for place in 1..n {
            for c in [1, 10, 20, 21, 25, 26, 30] {
                let kind = |j| match j {
                    _ if j == place => (1, 40, 30, c),
                    _ if j == n % place => (1, 200, 190, 10),
                    _ => (0, 200, 190, 190),
                };
                let kinds: Vec<_> = (0..n).map(kind).collect();
                open.push((Plan::of(3, 4, &[(1, 1), (2, 3)], &kinds), 1));
            }
        }
    }

    // 7: the other project leaves just enough, and one cell less.
    for c in 1..=22 {
        for project in [0, 1] {
            let of = project as u8;
            let mut plan = Plan::of(
                2,
                4,
                &[(2, 1); 2],
                &[(of, 40, 30, c), (1 - of, 9, 9, 9), (of, 40, 30, c)],
            );
            let (_, least) = smallest_budget(&plan, project);
            for more in [0, 1] {
                plan.projects[1 - usize::from(of)].budget = (8 - least + more).clamp(1, 8) as u16;
                // Whatever stands there.
                for stored in [0, 1, 8, 65535] {
                    plan.projects[usize::from(of)].budget = stored;
                    open.push((plan, project));
                }
            }
        }
    }

    // A project without kinds, in each place, with all cells but one taken, and with all.
    for project in 0..8 {
        for others in [1, 8] {
            let mut plan = Plan::of(
                8,
                8,
                &[(1, others); 8],
                &[((project as u8 + 1) % 8, 9, 9, 1)],
            );
            open.push((plan, project));
            plan.projects[(project as usize + 1) % 8] = Project {
                ceiling: 2,
                budget: 16,
            };
            open.push((plan, project));
        }
    }

    // The ends of F, q, n and D: a budget of 1, of qF, and none.
    for frame in [1u8, 64] {
        // With q 8 there is one cell too few for all of them.
        for q in [1u8, 7, 8] {
            for n in [1u16, 16] {
                for d in [1, u16::from(frame), u16::from(frame) + 1, 200] {
                    // qC + (n - 1)C <= qD at all cells, C - 1, C and C + 1 slices long.
                    let fits = (u16::from(q) * d / (u16::from(q) + n - 1)).max(1);
                    for c in [1, fits - 1, fits, fits + 1] {
                        let kinds = vec![(1, 4095, d, c.clamp(1, d)); usize::from(n)];
                        open.push((Plan::of(8, frame, &[(1, 1), (q, 0)], &kinds), 1));
                    }
                }
            }
        }
    }
    open
}

/// State records in form and out of form in each way at each place, at both ends of the frame and behind it, with the sums of what is
/// left.
pub fn fixed_state_records() -> Vec<State> {
    let mut states = Vec::new();
    let mut refused = Plan::a();
    refused.kinds[0].length = 8;
    for plan in [
        Plan::a(),
        Plan::b(),
        wide_plan(8),
        wide_plan(1),
        refused,
        Plan::default(),
    ] {
        let frame = plan.frame;
        for slice in [frame, frame + 1, 255] {
            let beyond = State {
                plan,
                slice,
                ..State::default()
            };
            states.push(beyond);
            for place in 0..16 {
                let mut state = beyond;
                state.kinds[place] = KindState {
                    released: true,
                    gone: 0,
                    left: plan.kinds[place].length,
                };
                states.push(state.summed());
            }
        }
        for slice in [0, 1, frame.saturating_sub(1)] {
            let base = State {
                plan,
                slice,
                ..State::default()
            };
            states.push(base);
            for place in 0..16 {
                let kind = plan.kinds[place];
                let (t, d, c) = (kind.separation, kind.deadline, kind.length);
                for (released, gone, left) in [
                    (false, 1, 0),
                    (false, t, 0),
                    (false, 0, 1),
                    (true, 0, 0),
                    (true, 0, c),
                    (true, 0, c + 1),
                    (true, d.saturating_sub(1), c),
                    (true, d, 1),
                    (true, d, 0),
                    (true, d + 1, 1),
                    (true, t.saturating_sub(1), 0),
                    (true, t.saturating_sub(1), 1),
                    (true, t, 0),
                    (true, t, 1),
                    (true, t + 1, 0),
                    (true, t + 1, 1),
                    (true, u16::MAX, 0),
                    (true, u16::MAX, u16::MAX),
                ] {
                    let mut state = base;
                    state.kinds[place] = KindState {
                        released,
                        gone,
                        left,
                    };
                    states.push(state.summed());
                }
            }
        }
    }
    states
}

/// State records whose sums differ in each place, by one, by a bit and by all of it, beside nothing else wrong and beside each number
/// that comes before or after; what is left without its sum; sums of two projects changed over, and that of all projects in one.
pub fn fixed_sums() -> Vec<State> {
    let mut states = Vec::new();
    for p in [1, 2, 7, 8] {
        for slice in [0, wide_plan(p).frame - 1, wide_plan(p).frame] {
            let mut state = State {
                plan: wide_plan(p),
                slice,
                ..State::default()
            };
            // Fifteen kinds of length 1, and one that is longer: kind 3 has a unit of 4 of its 5 slices left.
            state.plan.kinds[3].length = 5;
            for (i, place) in state.kinds.iter_mut().enumerate() {
                *place = KindState {
                    released: i % 4 > 0,
                    gone: if i % 4 > 0 { 5 } else { 0 },
                    left: [0, 1, 1, 0][i % 4],
                };
            }
            state.kinds[3].left = 4;
            let state = state.summed();
            states.push(state);
            for place in 0..8 {
                let mut differs = |to: u16| {
                    let mut other = state;
                    other.sums[place] = to;
                    states.push(other);
                };
                let sum = state.sums[place];
                for bit in 0..16 {
                    differs(sum ^ 1 << bit);
                }
                for to in [0, sum.wrapping_sub(1), sum + 1, sum + 255, u16::MAX] {
                    differs(to);
                }
                // One more here, one less in another place.
                for less in 0..8 {
                    let mut other = state;
                    other.sums[place] = sum + 1;
                    other.sums[less] = other.sums[less].wrapping_sub(1);
                    states.push(other);
                    let mut other = state;
                    other.sums.swap(place, less);
                    states.push(other);
                }
                let mut all = state;
                all.sums = [0; 8];
                all.sums[place] = state.sums.iter().sum();
                states.push(all);
            }
            for place in 0..16 {
                for bit in 0..16 {
                    let mut other = state;
                    other.kinds[place].left ^= 1 << bit;
                    states.push(other);
                }
                // What is left goes from one kind to another: of the same project or not.
                for to in 0..16 {
                    let mut other = state;
                    let left = std::mem::take(&mut other.kinds[place].left);
                    other.kinds[to].left += left;
                    states.push(other);
                }
            }
            // A sum that differs, on a plan that is out of order.
            let mut other = state;
            other.sums[0] += 1;
            other.plan.kinds[15].length = 0;
            states.push(other);
        }
    }
    // The greatest sum, and those that are it without the bits above it.
    let plan = Plan::of(8, 64, &[(8, 512)], &[(0, 4095, 4095, 4095); 16]);
    let mut state = State {
        plan,
        slice: 9,
        ..State::default()
    };
    state.kinds = [KindState {
        released: true,
        gone: 1,
        left: 4095,
    }; 16];
    state.sums[0] = 65520;
    states.push(state);
    for sum in [
        65519,
        65521,
        65520 - 32768,
        65520 - 4096,
        240,
        4095,
        0,
        65535,
    ] {
        let mut other = state;
        other.sums[0] = sum;
        states.push(other);
    }
    states
}
