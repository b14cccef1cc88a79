//! Streams for the player: the fixed ones, generated ones, and a program that plays them.

use crate::table::{example, run_and_compared};
use generate::{fixed_streams, long_stream, Generator, SLICE};
use second::bytes::pack;
use second::{play, play_by_absolute_clock, Plan};
use std::cell::Cell;
use std::fs::File;
use std::io::{self, Read, Write};
use std::os::fd::OwnedFd;
use std::os::unix::net::UnixStream;
use std::os::unix::process::ExitStatusExt;
use std::path::PathBuf;
use std::process::{Command, Stdio};
use std::thread::{scope, sleep};
use std::time::Duration;

/// A stream, what it was made for, and its lines where document 01 gives them.
#[derive(Clone)]
pub struct Stream {
    /// What the input was made for.
    pub name: String,
    /// The bytes of standard input.
    pub input: Vec<u8>,
    /// The lines, where 01 gives them.
    pub expected: Option<&'static str>,
    /// Where the writer pauses, so that the reader meets a pipe that is empty but not ended.
    pub pauses: Vec<usize>,
    /// What becomes of it.
    pub end: End,
}

/// How a play comes to its end.
#[derive(Clone, Copy, Debug, PartialEq, Eq)]
pub enum End {
    /// The input ends.
    Ended,
    /// The read behind the last byte fails.
    ReadFails,
    /// The output has no room for a single byte.
    OutputFull,
    /// The output is closed.
    OutputClosed,
}

impl End {
    fn output_fails(self) -> bool {
        matches!(self, End::OutputFull | End::OutputClosed)
    }
}

impl Stream {
    /// A stream that is sent at once and simply ends.
    pub fn new(name: &str, input: Vec<u8>) -> Stream {
        Stream {
            name: name.to_string(),
            input,
            expected: None,
            pauses: Vec::new(),
            end: End::Ended,
        }
    }
}

/// The slices of the longest stream.
const LONG: u64 = 200_000;

/// Separations at the end of their range, with deadlines at theirs and below: the plan, and slices enough for each kind to be released
/// three times.
fn far_apart() -> Vec<(Plan, u64)> {
    let kinds = [(0, 4095, 4095, 60), (0, 4095, 40, 2), (0, 4094, 300, 9)];
    vec![
        (Plan::of(1, 1, &[(1, 1)], &[(0, 4095, 1, 1)]), 8_300),
        (Plan::of(2, 7, &[(2, 9)], &kinds), 8_300),
        (Plan::of(8, 64, &[(8, 512)], &kinds), 8_300),
    ]
}

/// The example and "Run and compared"; long streams, reads and outputs that fail; then each refusal, each cut, each
/// spare bit and each bad command.
pub fn fixed() -> Vec<Stream> {
    let (input, lines) = example();
    let mut streams = vec![("the example", input, lines)];
    streams.extend(run_and_compared());
    let mut streams: Vec<Stream> = streams
        .into_iter()
        .map(|(name, input, lines)| Stream {
            expected: Some(lines),
            ..Stream::new(name, input)
        })
        .collect();
    // The example again, with a pause before each byte.
    streams.push(Stream {
        expected: streams[0].expected,
        pauses: (0..streams[0].input.len()).collect(),
        ..Stream::new("the example, byte by byte", streams[0].input.clone())
    });
    let long = long_stream(&Plan::a(), LONG);
    streams.push(Stream::new("200000 slices", long));
    for (plan, slices) in far_apart() {
        let stream = long_stream(&plan, slices);
        streams.push(Stream::new("units 4095 slices apart", stream));
    }
    streams.extend(failing());
    let more = fixed_streams();
    streams.extend(
        more.into_iter()
            .map(|one| Stream::new(&one.name, one.bytes)),
    );
    streams
}

/// Reads that fail at once, within the plan, behind it and within a command; outputs that fail while input is left.
fn failing() -> Vec<Stream> {
    let plan = pack(&Plan::a());
    let slice = [&plan[..], &SLICE].concat();
    let cut = [&plan[..], &SLICE, &[0]].concat();
    let many = [plan.clone(), SLICE.repeat(LONG as usize)].concat();
    let refused = [vec![0; 3], SLICE.repeat(9)].concat();
    let ending = |end, name: &str, input: &[u8]| Stream {
        end,
        ..Stream::new(name, input.to_vec())
    };
    vec![
        ending(End::ReadFails, "a read that fails at once", &[]),
        ending(
            End::ReadFails,
            "a read that fails within the plan",
            &plan[..9],
        ),
        ending(End::ReadFails, "a read that fails behind the plan", &plan),
        ending(End::ReadFails, "a read that fails behind a slice", &slice),
        ending(End::ReadFails, "a read that fails within a command", &cut),
        ending(
            End::ReadFails,
            "a read that would fail behind a refused plan",
            &refused,
        ),
        ending(End::OutputFull, "an output without room", &many),
        ending(End::OutputClosed, "an output that is closed", &many),
    ]
}

/// One generated stream; one in a hundred is sent in pieces.
pub fn generated(g: &mut Generator) -> Stream {
    let stream = g.stream();
    let mut pauses = Vec::new();
    if g.one_in(100) {
        for _ in 0..3 {
            pauses.push(g.below(stream.bytes.len() as u64 + 1) as usize);
        }
        pauses.sort();
    }
    Stream {
        pauses,
        ..Stream::new(&stream.name, stream.bytes)
    }
}

/// A program that reads a stream from standard input and prints its lines.
pub struct Program {
    /// Where it is.
    pub path: PathBuf,
    /// What it is started with.
    pub arguments: Vec<String>,
}

/// No player prints more than so many bytes and so many again for each byte of its input; one that does is ended.
const MOST_BEFORE: usize = 100;
const MOST_A_COMMAND: usize = 50;

/// Said of a program that takes its whole input though its output fails.
const WENT_ON: &[u8] = b"(went on)\n";

impl Program {
    /// What the program prints for this input; an end by a signal is told in a line of its own.
    pub fn play(&self, stream: &Stream) -> io::Result<Vec<u8>> {
        let mut command = Command::new(&self.path);
        command.args(&self.arguments);
        command.stdin(Stdio::piped()).stdout(Stdio::piped());
        if stream.end == End::OutputFull {
            command.stdout(File::options().write(true).open("/dev/full")?);
        }
        // A socket that does not wait fails a read where it has no more; its other end stays open.
        let mut other_end = None;
        if stream.end == End::ReadFails {
            let (mut own, childs) = UnixStream::pair()?;
            childs.set_nonblocking(true)?;
            own.write_all(&stream.input)?;
            other_end = Some(own);
            command.stdin(OwnedFd::from(childs));
        }
        let mut child = command.spawn()?;
        // The command holds the socket too.
        drop(command);
        let (input, output) = (child.stdin.take(), child.stdout.take());
        let mut lines = scope(|scope| {
            let writer = scope.spawn(|| input.map(|pipe| send(stream, pipe)));
            let mut lines = Vec::new();
            match output {
                Some(_) if stream.end == End::OutputClosed => drop(output),
                Some(pipe) => {
                    let most = MOST_BEFORE + MOST_A_COMMAND * stream.input.len();
                    pipe.take(most as u64).read_to_end(&mut lines)?;
                    if lines.len() == most {
                        child.kill()?;
                    }
                }
                None => {}
            }
            let sent = writer.join().ok().flatten();
            if stream.end.output_fails() && sent == Some(true) {
                lines.extend(WENT_ON);
            }
            io::Result::Ok(lines)
        })?;
        let status = child.wait()?;
        drop(other_end);
        const SIGPIPE: i32 = 13;
        let closed = stream.end == End::OutputClosed && status.signal() == Some(SIGPIPE);
        if status.code().is_none() && !closed {
            lines.extend(format!("({status})\n").bytes());
        }
        Ok(lines)
    }
}

/// Sends the input, with its pauses; whether all of it was taken.
fn send(stream: &Stream, mut pipe: impl Write) -> bool {
    let mut sent = 0;
    // A player may stop before the end of its input; the rest is then not taken.
    for &pause in &stream.pauses {
        if pipe.write_all(&stream.input[sent..pause]).is_err() {
            return false;
        }
        sent = pause;
        sleep(Duration::from_millis(1));
    }
    pipe.write_all(&stream.input[sent..]).is_ok()
}

/// What the second program prints for this input.
pub fn second_plays(stream: &Stream) -> Vec<u8> {
    printed(stream, |input, output| play(input, output))
}

/// What its other mode prints, by the old rules, where each clock is told within the frame.
pub fn old_plays(stream: &Stream) -> Vec<u8> {
    let lines = printed(stream, |input, output| {
        play_by_absolute_clock(input, output)
    });
    let frame = u64::from(second::read(&stream.input).1.frame);
    within_the_frame(&lines, frame)
}

/// The lines with the clock of each slice, and that of the last line, within the frame.
fn within_the_frame(lines: &[u8], frame: u64) -> Vec<u8> {
    let mut within = Vec::with_capacity(lines.len());
    for line in lines.split_inclusive(|&byte| byte == b'\n') {
        let text = String::from_utf8_lossy(line);
        let clock = text.strip_prefix("t ").or(text.strip_prefix("end "));
        let digits = clock.map_or(0, |rest| {
            let other = |byte: u8| !byte.is_ascii_digit();
            rest.bytes().position(other).unwrap_or(0)
        });
        let (Some(rest), 1..) = (clock, digits) else {
            within.extend(line);
            continue;
        };
        let clock: u64 = rest[..digits].parse().unwrap_or(0);
        let before = &text[..text.len() - rest.len()];
        within.extend(before.bytes());
        within.extend((clock % frame.max(1)).to_string().bytes());
        within.extend(rest[digits..].bytes());
    }
    within
}

/// What a player prints for this input.
fn printed(stream: &Stream, play: fn(&mut dyn Read, &mut dyn Write)) -> Vec<u8> {
    let mut output = Vec::new();
    let mut input = &stream.input[..];
    match stream.end {
        End::Ended => play(&mut input, &mut output),
        End::ReadFails => play(&mut input.chain(Failing), &mut output),
        End::OutputFull | End::OutputClosed => {
            let taken = Cell::new(0);
            play(&mut Counted(&mut input, &taken), &mut Failing);
            if taken.get() == stream.input.len() {
                output.extend(WENT_ON);
            }
        }
    }
    output
}

/// An input or an output that fails.
struct Failing;

impl Read for Failing {
    fn read(&mut self, _: &mut [u8]) -> io::Result<usize> {
        Err(io::ErrorKind::WouldBlock.into())
    }
}

impl Write for Failing {
    fn write(&mut self, _: &[u8]) -> io::Result<usize> {
        Err(io::ErrorKind::StorageFull.into())
    }

    fn flush(&mut self) -> io::Result<()> {
        Ok(())
    }
}

/// An input that counts the bytes taken from it.
struct Counted<'a>(&'a mut &'a [u8], &'a Cell<usize>);

impl Read for Counted<'_> {
    fn read(&mut self, into: &mut [u8]) -> io::Result<usize> {
        let count = self.0.read(into)?;
        self.1.set(self.1.get() + count);
        Ok(count)
    }
}
