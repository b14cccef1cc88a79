//! The plans, states and the stream that are timed.

use generate::limit_plans;
use second::{fresh, release, slice, verdict, KindState, Plan, State};

/// One card, one project, one kind, one slice.
pub fn smallest() -> Plan {
    Plan::of(1, 1, &[(1, 1)], &[(0, 1, 1, 1)])
}

/// A plan whose bytes are the most there are: eight projects and sixteen kinds.
pub fn widest() -> Plan {
    let widest = |plan: &Plan| (plan.p, plan.n) == (8, 16) && verdict(plan).0.is_good();
    limit_plans().into_iter().find(widest).unwrap_or_default()
}

/// A rack of four cards with three projects: one that folds on two cards at a time, two smaller ones.
pub fn typical() -> Plan {
    Plan::of(
        4,
        16,
        &[(2, 28), (1, 12), (2, 20)],
        &[
            (0, 40, 40, 9),
            (0, 60, 60, 12),
            (0, 120, 100, 20),
            (1, 60, 50, 8),
            (1, 120, 120, 20),
            (2, 40, 30, 5),
            (2, 80, 64, 10),
            (2, 240, 240, 12),
        ],
    )
}

/// `q` cards held throughout by one project of `n` like kinds, each as long as k = q allows and no k below it.
pub fn only_at(q: u8, n: u16, frame: u8, d: u16) -> Plan {
    // qC + (n-1)C <= qD, and more than at q - 1.
    let c = (u32::from(q) * u32::from(d) / (u32::from(q) + u32::from(n) - 1)) as u16;
    let kinds = vec![(0, d, d, c); usize::from(n)];
    let plan = Plan::of(8, frame, &[(q, u16::from(q) * u16::from(frame))], &kinds);
    let (answer, k, _) = verdict(&plan);
    assert!(answer.is_good() && k[..usize::from(n)].iter().all(|&k| k == q));
    plan
}

/// The largest project whose budget can be left open: eight cards, frame 64, sixteen kinds, each of which fits at k = 8 alone.
pub fn open(d: u16) -> Plan {
    only_at(8, 16, 64, d)
}

/// The same project where fifteen kinds fit at k = 5 with five cards or more and the last one with all cells alone, so that each
/// budget but the first few that are tried is judged for all kinds.
pub fn open_last() -> Plan {
    let mut kinds = [(0, 4095, 4095, 910); 16];
    kinds[15].3 = 2388;
    let plan = Plan::of(8, 64, &[(8, 512)], &kinds);
    let (answer, k, _) = verdict(&plan);
    assert!(answer.is_good() && k[..15] == [5; 15] && k[15] == 8);
    plan
}

/// Eight cards held throughout by one project with `n` kinds that all have work, released one slice after another.
pub fn all_active(n: u16, frame: u8, d: u16) -> State {
    let kinds = vec![(0, d, d, d); usize::from(n)];
    let plan = Plan::of(8, frame, &[(8, 8 * u16::from(frame))], &kinds);
    let mut state = State {
        plan,
        slice: (1000 % u16::from(frame)) as u8,
        ..State::default()
    };
    for (i, place) in state.kinds.iter_mut().take(usize::from(n)).enumerate() {
        *place = KindState {
            released: true,
            gone: 7 * i as u16 % 16,
            left: 100,
        };
    }
    state.summed()
}

/// The same, where the last kind was never released.
pub fn last_due(n: u16, frame: u8, d: u16) -> State {
    let mut state = all_active(n, frame, d);
    state.kinds[usize::from(n) - 1] = KindState::default();
    state.summed()
}

/// A call of the stream.
#[derive(Clone, Copy)]
pub enum Command {
    /// Of a kind, with a length.
    Release(u64, u64),
    /// A slice.
    Slice,
}

/// Calls that are all good, from a fresh start.
pub struct Stream {
    /// The fresh start.
    pub start: State,
    /// What follows.
    pub commands: Vec<Command>,
    /// How many slices.
    pub slices: u64,
    /// How many releases.
    pub releases: u64,
}

/// Four projects of four kinds each; each kind is released as soon as it is due, at its full length.
pub fn stream(slices: u64) -> Stream {
    let kinds: Vec<_> = (0..16)
        .map(|j| (j as u8 % 4, 40 + 8 * j, 40 + 8 * j, 10))
        .collect();
    let plan = Plan::of(8, 16, &[(2, 24); 4], &kinds);
    let (answer, start) = fresh(&plan);
    assert!(answer.is_good());
    let mut stream = Stream {
        start,
        commands: Vec::new(),
        slices,
        releases: 0,
    };
    let mut state = start;
    for _ in 0..slices {
        for kind in 0..16 {
            let e = u64::from(plan.kinds[kind as usize].length);
            let (answer, next) = release(&state, kind, e);
            if answer.is_good() {
                state = next;
                stream.commands.push(Command::Release(kind, e));
                stream.releases += 1;
            }
        }
        state = slice(&state, &mut [0; 8]).1;
        stream.commands.push(Command::Slice);
    }
    stream
}
