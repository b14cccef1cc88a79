//! "The player": a plan, then commands of three bytes, one line each; by the rules, and by the old ones.

use std::io::{self, BufRead, BufReader, BufWriter, Read, Write};

use crate::answer::Answer;
use crate::bytes::{bytes_asked_for, read};
use crate::plan::Plan;
use crate::{absolute_clock, rack};

/// What a player asks of a running state.
trait Running: Sized {
    fn fresh(plan: &Plan) -> (Answer, Self);
    fn release(&self, kind: u64, e: u64) -> (Answer, Self);
    fn show(&self, row: &mut [u8]) -> Answer;
    fn advance(&self) -> (Answer, Self);
    fn clock(&self) -> u64;
}

impl Running for rack::State {
    fn fresh(plan: &Plan) -> (Answer, Self) {
        rack::fresh(plan)
    }

    fn release(&self, kind: u64, e: u64) -> (Answer, Self) {
        rack::release(self, kind, e)
    }

    fn show(&self, row: &mut [u8]) -> Answer {
        rack::show(self, row)
    }

    fn advance(&self) -> (Answer, Self) {
        rack::advance(self)
    }

    /// "`play` prints that slice as its clock, in `end` too."
    fn clock(&self) -> u64 {
        u64::from(self.slice)
    }
}

impl Running for absolute_clock::State {
    fn fresh(plan: &Plan) -> (Answer, Self) {
        absolute_clock::fresh(plan)
    }

    fn release(&self, kind: u64, e: u64) -> (Answer, Self) {
        absolute_clock::release(self, kind, e)
    }

    fn show(&self, row: &mut [u8]) -> Answer {
        absolute_clock::show(self, row)
    }

    fn advance(&self) -> (Answer, Self) {
        absolute_clock::advance(self)
    }

    fn clock(&self) -> u64 {
        u64::from(self.clock)
    }
}

/// "commands of three bytes: 1 bit (0 slice, 1 release), kind 4 bits, e 12 bits, 7 zero bits".
#[derive(Clone, Copy, Debug, PartialEq, Eq)]
pub enum Command {
    /// "a slice has zeros throughout".
    Slice,
    /// A release of a kind with a length e.
    Release {
        /// "kind 4 bits".
        kind: u64,
        /// "e 12 bits".
        e: u64,
    },
    /// "Any other three bytes, or one or two left over".
    Bad,
}

/// "1 bit (0 slice, 1 release), kind 4 bits, e 12 bits, 7 zero bits; a slice has zeros throughout."
pub fn command(bytes: &[u8]) -> Command {
    let &[first, second, third] = bytes else {
        return Command::Bad;
    };
    let bits = u64::from(first) << 16 | u64::from(second) << 8 | u64::from(third);
    let is_release = bits >> 23 == 1;
    let kind = bits >> 19 & 0b1111;
    let e = bits >> 7 & 0b1111_1111_1111;
    let seven = bits & 0b111_1111;
    if is_release && seven == 0 {
        Command::Release { kind, e }
    } else if bits == 0 {
        Command::Slice
    } else {
        Command::Bad
    }
}

/// "Program `play` reads a plan from standard input, then commands of three bytes".
pub fn play(input: impl Read, output: impl Write) {
    play_by::<rack::State>(input, output);
}

/// The same by the old rules: each clock is the absolute one.
pub fn play_by_absolute_clock(input: impl Read, output: impl Write) {
    play_by::<absolute_clock::State>(input, output);
}

fn play_by<State: Running>(input: impl Read, output: impl Write) {
    let mut input = BufReader::new(input);
    let mut output = BufWriter::new(output);
    // A failed read or a closed output ends the play quietly.
    let _ = play_lines::<State, _, _>(&mut input, &mut output);
    let _ = output.flush();
}

fn play_lines<State: Running, R: Read, W: Write>(
    input: &mut BufReader<R>,
    output: &mut BufWriter<W>,
) -> io::Result<()> {
    // As many bytes as the plan asks for; what follows is commands.
    let mut front = Vec::new();
    while front.len() < bytes_asked_for(&front) {
        let wanted = bytes_asked_for(&front) - front.len();
        let more = take(input, output, wanted)?;
        let ended = more.len() < wanted;
        front.extend(more);
        if ended {
            break;
        }
    }
    // "First line: `plan ok` or `plan refused N at P`, and then it stops."
    let (answer, plan, _) = read(&front);
    if !answer.is_good() {
        return writeln!(output, "plan refused {} at {}", answer.number, answer.place);
    }
    let (answer, mut state) = State::fresh(&plan);
    if !answer.is_good() {
        return writeln!(output, "plan refused {} at {}", answer.number, answer.place);
    }
    writeln!(output, "plan ok")?;

    loop {
        let bytes = take(input, output, 3)?;
        if bytes.is_empty() {
            break;
        }
        match command(&bytes) {
            // "A release prints `r KIND E ok` or `r KIND E refused N`".
            Command::Release { kind, e } => {
                let (answer, next) = state.release(kind, e);
                state = next;
                if answer.is_good() {
                    writeln!(output, "r {kind} {e} ok")?;
                } else {
                    writeln!(output, "r {kind} {e} refused {}", answer.number)?;
                }
            }
            // "a slice prints `t CLOCK:` with the clock before it and the row's bytes, or `t refused N`".
            Command::Slice => {
                // "`play` and every other caller use the pair."
                let mut row = vec![0; usize::from(plan.m)];
                let answer = state.show(&mut row);
                if answer.is_good() {
                    write!(output, "t {}:", state.clock())?;
                    for byte in row {
                        write!(output, " {byte}")?;
                    }
                    writeln!(output)?;
                    state = state.advance().1;
                } else {
                    writeln!(output, "t refused {}", answer.number)?;
                }
            }
            // "Any other three bytes, or one or two left over, print `bad command`; no more is read."
            Command::Bad => {
                writeln!(output, "bad command")?;
                break;
            }
        }
    }
    // "Last line after a good plan, also then: `end CLOCK`."
    writeln!(output, "end {}", state.clock())
}

/// The next `wanted` bytes, or fewer when the input ends; lines already known are shown before waiting for more.
fn take<R: Read, W: Write>(
    input: &mut BufReader<R>,
    output: &mut BufWriter<W>,
    wanted: usize,
) -> io::Result<Vec<u8>> {
    let mut bytes = Vec::new();
    while bytes.len() < wanted {
        if input.buffer().is_empty() {
            output.flush()?;
        }
        let there = match input.fill_buf() {
            Ok(there) => there,
            Err(error) if error.kind() == io::ErrorKind::Interrupted => continue,
            Err(error) => return Err(error),
        };
        if there.is_empty() {
            break;
        }
        let count = there.len().min(wanted - bytes.len());
        bytes.extend_from_slice(&there[..count]);
        input.consume(count);
    }
    Ok(bytes)
}
