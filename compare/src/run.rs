//! The comparison itself: the first difference, and how much was compared before it.

use crate::beside::{self, Beside};
use crate::cases::{self, Fixed, Rounds};
use crate::flips::{self, Told, STATES_A_RUN};
use crate::interface::{
    hex, image_in_words, number, outcome_in_words, refused, Case, Outcome, Side, OPS,
};
use crate::second_side::Second;
use crate::shrink::{smaller_case, smaller_stream};
use crate::streams::{self, old_plays, second_plays, End, Program, Stream};
use crate::table::table;
use std::io;
use std::panic::resume_unwind;
use std::sync::atomic::{AtomicU64, Ordering};
use std::thread::{available_parallelism, scope};

/// Every number given back is below this.
const NUMBERS: usize = 28;

/// "11 and 15 are retired."
const RETIRED: [usize; 2] = [11, 15];

/// How much was compared.
#[derive(Clone, Debug, Default)]
pub struct Tally {
    /// Images and strings of plan bytes.
    pub records: u64,
    /// Calls on them.
    pub calls: u64,
    /// Calls by function and number given back.
    pub numbers: [[u64; NUMBERS]; OPS.len()],
    /// Streams.
    pub streams: u64,
    /// Lines that they printed.
    pub lines: u64,
    /// Flipped bits in states, and what the compared side said to them.
    pub flips: Told,
    /// Runs beside the old rules.
    pub beside: Beside,
}

/// The most bytes of a stream that are printed, and that are tried to be made fewer.
const MOST_SHOWN: usize = 60_000;

/// The first call that differs.
pub struct RecordDifference {
    /// The call.
    pub case: Case,
    /// What the documents give for it, where they do, and where they say so.
    pub expected: Option<(&'static str, Outcome)>,
}

/// The first stream that differs.
pub struct StreamDifference {
    /// The stream.
    pub stream: Stream,
}

/// Which part of the cases to run.
#[derive(Clone, Copy, Debug, PartialEq, Eq)]
pub struct Part {
    /// The fixed cases, with those whose outcome document 01 gives.
    pub fixed: bool,
    /// About so many generated records, or so many generated streams.
    pub generated: u64,
    /// Of the fixed streams one in so many, beside those that document 01 gives or that fail.
    pub one_in: usize,
    /// About so many reached states in which each bit of a sum or of slices left is flipped.
    pub flips: u64,
    /// So many runs beside the old rules.
    pub runs: u64,
    /// The seed of the generated cases.
    pub seed: u64,
}

/// The fixed records of one part of the work.
const RECORDS_A_PART: usize = 100;

/// Works through the parts in order, on every processor, up to the first that differs; what was compared behind it is
/// not counted, so that the same work always tells the same.
fn in_order<T: Send>(
    parts: u64,
    work: impl Fn(u64, &mut Tally) -> Option<T> + Sync,
    tally: &mut Tally,
) -> Option<T> {
    let next = AtomicU64::new(0);
    let worker = || {
        let mut done = Vec::new();
        loop {
            let part = next.fetch_add(1, Ordering::Relaxed);
            if part >= parts {
                return done;
            }
            let mut own = Tally::default();
            let found = work(part, &mut own);
            if found.is_some() {
                // Nobody begins another part; those begun come to their end.
                next.store(parts, Ordering::Relaxed);
            }
            done.push((part, own, found));
        }
    };
    let workers = available_parallelism().map_or(1, usize::from);
    let mut done = scope(|scope| {
        let workers: Vec<_> = (0..workers).map(|_| scope.spawn(worker)).collect();
        let mut done = Vec::new();
        for worker in workers {
            match worker.join() {
                Ok(own) => done.extend(own),
                Err(panic) => resume_unwind(panic),
            }
        }
        done
    });
    done.sort_by_key(|&(part, ..)| part);
    for (_, own, found) in done {
        tally.add(&own);
        if found.is_some() {
            return found;
        }
    }
    None
}

/// Compares records: the fixed ones, then rounds of generated ones.
pub fn records(
    side: &(impl Side + Sync),
    part: Part,
    tally: &mut Tally,
) -> Option<RecordDifference> {
    if part.fixed {
        for row in table() {
            tally.records += 1;
            tally.calls += 1;
            if row.case.run(side) != row.expected || row.case.run(&Second) != row.expected {
                return Some(RecordDifference {
                    case: row.case,
                    expected: Some((row.name, row.expected)),
                });
            }
        }
        let fixed = cases::fixed();
        let parts: Vec<_> = fixed.chunks(RECORDS_A_PART).collect();
        let work = |at: u64, tally: &mut Tally| {
            let mut records = parts[at as usize].iter().map(Fixed::record);
            records.find_map(|record| record_differs(side, record, tally))
        };
        let found = in_order(parts.len() as u64, work, tally);
        if found.is_some() {
            return found;
        }
    }
    let rounds = Rounds::new(part.seed);
    let work = |round: u64, tally: &mut Tally| {
        let mut records = rounds.round(round).into_iter();
        records.find_map(|record| record_differs(side, record, tally))
    };
    let found = in_order(part.generated.div_ceil(Rounds::RECORDS), work, tally);
    if found.is_some() {
        return found;
    }
    let work = |at: u64, tally: &mut Tally| {
        let (mut g, states) = flips::run(part.seed, at);
        let mut states = states.iter();
        states.find_map(|state| flip_differs(side, flips::calls(&mut g, state), tally))
    };
    let found = in_order(part.flips.div_ceil(STATES_A_RUN), work, tally);
    if found.is_some() {
        return found;
    }
    let work = |at: u64, tally: &mut Tally| run_differs(side, part.seed, at, tally);
    in_order(part.runs, work, tally)
}

/// A run beside the old rules: both sides must give what they give.
fn run_differs(
    side: &impl Side,
    seed: u64,
    at: u64,
    tally: &mut Tally,
) -> Option<RecordDifference> {
    let mut told = Beside::default();
    let found = beside::run(seed, at, &mut told, |case, expected| {
        tally.calls += 1;
        tally.numbers[case.op as usize][number(expected.word) as usize % NUMBERS] += 1;
        match case.run(side) != expected || case.run(&Second) != expected {
            true => Some(RecordDifference {
                case,
                expected: Some(("(ix): as by the old rules", expected)),
            }),
            false => None,
        }
    });
    tally.records += 1;
    tally.beside.add(&told);
    found
}

/// The calls on a state as it is, and on the state with each bit flipped; a flip that is not told differs from what document 02 says.
fn flip_differs(side: &impl Side, calls: Vec<Case>, tally: &mut Tally) -> Option<RecordDifference> {
    let flipped: Vec<_> = flips::flipped(&calls).collect();
    tally.flips.states += 1;
    let found = record_differs(side, calls, tally);
    if found.is_some() {
        return found;
    }
    for record in flipped {
        tally.records += 1;
        let mut told = Vec::new();
        for case in record {
            tally.calls += 1;
            let expected = case.run(&Second);
            tally.numbers[case.op as usize][number(expected.word) as usize % NUMBERS] += 1;
            let outcome = case.run(side);
            if outcome != expected {
                return Some(RecordDifference {
                    case,
                    expected: None,
                });
            }
            told.push((case, outcome));
        }
        if !tally.flips.count(&told) {
            let (case, outcome) = told.swap_remove(0);
            let expected = Outcome {
                word: refused(16),
                given: case.given.clone(),
                lent: case.lent.clone(),
                ..outcome
            };
            return Some(RecordDifference {
                case,
                expected: Some(("(vii): a flipped bit is told by every call", expected)),
            });
        }
    }
    None
}

fn record_differs(
    side: &impl Side,
    record: Vec<Case>,
    tally: &mut Tally,
) -> Option<RecordDifference> {
    tally.records += 1;
    for case in record {
        tally.calls += 1;
        let expected = case.run(&Second);
        tally.numbers[case.op as usize][number(expected.word) as usize % NUMBERS] += 1;
        if case.run(side) != expected {
            return Some(RecordDifference {
                case,
                expected: None,
            });
        }
    }
    None
}

/// Compares streams: the fixed ones, then generated ones.
pub fn streams(
    program: &Program,
    part: Part,
    tally: &mut Tally,
) -> io::Result<Option<StreamDifference>> {
    let work = |stream: Stream, tally: &mut Tally| match stream_differs(program, &stream, tally) {
        Ok(false) => None,
        Ok(true) => Some(Ok(StreamDifference { stream })),
        Err(error) => Some(Err(error)),
    };
    if part.fixed {
        let kept = |&(at, ref stream): &(usize, Stream)| {
            at % part.one_in == 0 || stream.expected.is_some() || stream.end != End::Ended
        };
        let numbered = streams::fixed().into_iter().enumerate().filter(kept);
        let fixed: Vec<Stream> = numbered.map(|(_, stream)| stream).collect();
        let count = fixed.len() as u64;
        let found = in_order(
            count,
            |at, tally| work(fixed[at as usize].clone(), tally),
            tally,
        );
        if found.is_some() {
            return found.transpose();
        }
    }
    let seed = part.seed ^ 0x5EED_0F57_4EA3_5000;
    let stream = |at| streams::generated(&mut cases::numbered(seed, at));
    in_order(part.generated, |at, tally| work(stream(at), tally), tally).transpose()
}

/// Whether a stream differs; an error is about starting the program.
fn stream_differs(program: &Program, stream: &Stream, tally: &mut Tally) -> io::Result<bool> {
    tally.streams += 1;
    let (one, other) = (program.play(stream)?, second_plays(stream));
    tally.lines += other.iter().filter(|&&byte| byte == b'\n').count() as u64;
    let as_01_says = stream
        .expected
        .is_none_or(|lines| lines.as_bytes() == other);
    Ok(one != other || !as_01_says || old_plays(stream) != other)
}

impl RecordDifference {
    /// The difference in a few lines: a smaller call that still differs, as bytes, and both answers.
    pub fn in_words(&self, side: &impl Side, name: &str) -> String {
        let (heading, case) = match &self.expected {
            Some((place, _)) => (
                format!("not as the documents say ({place})"),
                self.case.clone(),
            ),
            None => {
                let mut differs = |case: &Case| case.run(side) != case.run(&Second);
                let smaller = smaller_case(&self.case, &mut differs);
                ("a call differs".to_string(), smaller)
            }
        };
        let mut text = format!("{heading}:\n  call   {}\n", case.line());
        if let Some(image) = image_in_words(&case) {
            text += &format!("  that is {image}\n");
        }
        let (one, other) = (case.run(side), case.run(&Second));
        let mut tell = |name: &str, own: &Outcome, other: &Outcome| {
            text += &format!("  {name:<6} {}\n", outcome_in_words(own, other));
        };
        match &self.expected {
            Some((_, expected)) => {
                tell(name, &one, expected);
                tell("second", &other, expected);
                tell("said", expected, &one);
            }
            None => {
                tell(name, &one, &other);
                tell("second", &other, &one);
            }
        }
        text
    }
}

impl StreamDifference {
    /// The difference in a few lines: a shorter stream that still differs, as bytes, and the lines from the first that differs.
    pub fn in_words(&self, program: &Program, name: &str) -> io::Result<String> {
        let given = &self.stream;
        let with = |input: &[u8]| Stream::new(&given.name, input.to_vec());
        let mut differs = |input: &Vec<u8>| {
            let stream = with(input);
            let other = second_plays(&stream);
            old_plays(&stream) != other || program.play(&stream).is_ok_and(|one| one != other)
        };
        let mut text = format!("a stream differs ({}):\n", given.name);
        let mut stream = with(&given.input);
        if given.end == End::Ended && given.input.len() <= MOST_SHOWN && differs(&given.input) {
            stream = with(&smaller_stream(&given.input, &mut differs));
        } else {
            // It differs from 01, only when it is sent with pauses or fails, or is too long to be made small.
            stream.pauses = given.pauses.clone();
            stream.expected = given.expected;
            stream.end = given.end;
            text += &format!(
                "  sent with pauses at {:?}, {:?}\n",
                given.pauses, given.end
            );
        }
        let (one, other) = (program.play(&stream)?, second_plays(&stream));
        let old = old_plays(&stream);
        let (shown, more) = stream.input.split_at(stream.input.len().min(MOST_SHOWN));
        text += &format!("  stream {}", hex(shown));
        text += &match more.len() {
            0 => "\n".to_string(),
            more => format!(" and {more} bytes more\n"),
        };
        let in_text = |lines: Vec<u8>| String::from_utf8_lossy(&lines).into_owned();
        let mut sides = vec![
            (name, in_text(one)),
            ("second", in_text(other)),
            ("old", in_text(old)),
        ];
        if let Some(lines) = stream.expected {
            sides.push(("01", lines.to_string()));
        }
        let texts: Vec<&str> = sides.iter().map(|(_, text)| text.as_str()).collect();
        let from = first_differing_line(&texts);
        for (name, lines) in &sides {
            text += &format!("  {name:<6} from line {}:", from + 1);
            let shown: Vec<&str> = lines.lines().skip(from).take(3).collect();
            text += &format!(" {shown:?}, {} lines\n", lines.lines().count());
        }
        Ok(text)
    }
}

fn first_differing_line(texts: &[&str]) -> usize {
    let lines: Vec<Vec<&str>> = texts.iter().map(|text| text.lines().collect()).collect();
    let most = lines.iter().map(Vec::len).max().unwrap_or(0);
    (0..most)
        .find(|&at| lines.iter().any(|one| one.get(at) != lines[0].get(at)))
        .unwrap_or(0)
}

impl Tally {
    fn add(&mut self, other: &Tally) {
        self.records += other.records;
        self.calls += other.calls;
        self.streams += other.streams;
        self.lines += other.lines;
        self.flips.add(&other.flips);
        self.beside.add(&other.beside);
        for (own, other) in self.numbers.iter_mut().zip(&other.numbers) {
            for (own, other) in own.iter_mut().zip(other) {
                *own += other;
            }
        }
    }

    /// How often a retired number was given back.
    pub fn retired(&self) -> u64 {
        let each = self.numbers.iter();
        each.map(|counts| RETIRED.map(|number| counts[number]).iter().sum::<u64>())
            .sum()
    }

    /// A table of the numbers given back, a line for each function.
    pub fn numbers_in_words(&self) -> String {
        let mut text = String::from("calls by number given back (generated and fixed):\n");
        for ((_, name), counts) in OPS.iter().zip(&self.numbers) {
            text += &format!("  {name:<15}");
            for (number, &count) in counts.iter().enumerate() {
                if count > 0 {
                    text += &format!(" {number}:{count}");
                }
            }
            text += "\n";
        }
        text
    }
}
