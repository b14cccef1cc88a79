//! "The player": the example with its eleven lines, and each sentence beside it.

use second::bytes::pack;
use second::*;
use std::io::{self, Read, Write};

/// "a slice has zeros throughout".
const SLICE: [u8; 3] = [0, 0, 0];

/// "1 bit (0 slice, 1 release), kind 4 bits, e 12 bits, 7 zero bits".
fn release_bytes(kind: u32, e: u32) -> [u8; 3] {
    let [_, bytes @ ..] = (1 << 23 | kind << 19 | e << 7).to_be_bytes();
    bytes
}

fn played(input: &[u8]) -> String {
    let mut output = Vec::new();
    play(input, &mut output);
    String::from_utf8(output).unwrap()
}

fn on_plan_a(commands: &[&[u8]]) -> String {
    played(&[&pack(&Plan::a())[..], &commands.concat()].concat())
}

#[test]
fn the_example() {
    let mut input = pack(&Plan::a());
    for (kind, e) in [(0, 6), (1, 2), (2, 2)] {
        input.extend(release_bytes(kind, e));
    }
    for _ in 0..4 {
        input.extend(SLICE);
    }
    input.extend(release_bytes(1, 2));
    input.extend(release_bytes(2, 1));
    let lines = include_str!("../../samples/example.txt");
    assert_eq!(lines.lines().count(), 11);
    assert_eq!(played(&input), lines);
}

#[test]
fn a_refused_plan_prints_one_line() {
    assert_eq!(played(&[]), "plan refused 1 at 0\n");
    assert_eq!(played(&[0x22, 0x18]), "plan refused 1 at 0\n");
    assert_eq!(played(&pack(&Plan::a())[..21]), "plan refused 1 at 0\n");
    let mut plan = Plan::a();
    plan.projects[1].ceiling = 3;
    assert_eq!(played(&pack(&plan)), "plan refused 4 at 1\n");
    let mut plan = Plan::a();
    plan.kinds[1].length = 4;
    let not_admitted = [pack(&plan), SLICE.to_vec()].concat();
    assert_eq!(played(&not_admitted), "plan refused 8 at 1\n");
}

#[test]
fn the_command_bytes() {
    // 1, kind 2, e 5, zeros: 1 0010 0000 0000 0101 0000000.
    assert_eq!(release_bytes(2, 5), [0b1001_0000, 0b0000_0010, 0b1000_0000]);
    assert_eq!(
        play::command(&[0x90, 0x02, 0x80]),
        play::Command::Release { kind: 2, e: 5 }
    );
    assert_eq!(play::command(&SLICE), play::Command::Slice);
}

#[test]
fn no_commands() {
    assert_eq!(on_plan_a(&[]), "plan ok\nend 0\n");
}

#[test]
fn a_slice_with_any_bit_set_is_a_bad_command() {
    for bit in 0..23 {
        let bad = [
            (1u32 << bit >> 16) as u8,
            (1u32 << bit >> 8) as u8,
            (1u32 << bit) as u8,
        ];
        assert_eq!(
            on_plan_a(&[&SLICE, &bad, &SLICE]),
            "plan ok\nt 0: 0 0\nbad command\nend 1\n"
        );
    }
}

#[test]
fn a_release_with_a_low_bit_set_is_a_bad_command() {
    for bit in 0..7 {
        let mut bad = release_bytes(0, 1);
        bad[2] |= 1 << bit;
        assert_eq!(on_plan_a(&[&bad, &SLICE]), "plan ok\nbad command\nend 0\n");
    }
}

#[test]
fn one_or_two_bytes_left_over_are_a_bad_command() {
    for left_over in [&[0][..], &[0, 0], &[0x80], &[0x80, 0x80]] {
        assert_eq!(
            on_plan_a(&[&SLICE, left_over]),
            "plan ok\nt 0: 0 0\nbad command\nend 1\n"
        );
    }
}

#[test]
fn a_release_may_be_refused_12_13_or_14() {
    assert_eq!(
        on_plan_a(&[
            &release_bytes(15, 1),
            &release_bytes(3, 0),
            &release_bytes(0, 0),
            &release_bytes(0, 7),
            &release_bytes(0, 4095),
            &release_bytes(0, 1),
            &release_bytes(0, 1),
            &release_bytes(0, 0),
        ]),
        "plan ok\nr 15 1 refused 12\nr 3 0 refused 12\nr 0 0 refused 13\nr 0 7 refused 13\n\
         r 0 4095 refused 13\nr 0 1 ok\nr 0 1 refused 14\nr 0 0 refused 13\nend 0\n"
    );
}

struct Failing;

impl Read for Failing {
    fn read(&mut self, _: &mut [u8]) -> io::Result<usize> {
        Err(io::ErrorKind::Other.into())
    }
}

/// Takes so many bytes, then is closed.
struct Closed(usize);

impl Write for Closed {
    fn write(&mut self, bytes: &[u8]) -> io::Result<usize> {
        if self.0 == 0 {
            return Err(io::ErrorKind::BrokenPipe.into());
        }
        let count = self.0.min(bytes.len());
        self.0 -= count;
        Ok(count)
    }

    fn flush(&mut self) -> io::Result<()> {
        Ok(())
    }
}

#[test]
fn ends_quietly_on_a_failed_read() {
    let mut output = Vec::new();
    play(Failing, &mut output);
    assert_eq!(output, b"");
    let bytes = [pack(&Plan::a()), SLICE.to_vec(), vec![0]].concat();
    play((&bytes[..]).chain(Failing), &mut output);
    assert_eq!(output, b"plan ok\nt 0: 0 0\n");
}

#[test]
fn ends_quietly_on_a_closed_output() {
    let bytes = [pack(&Plan::a()), SLICE.repeat(20_000)].concat();
    for taken in [0, 1, 5, 10_000] {
        play(&bytes[..], Closed(taken));
    }
}

#[test]
fn the_program_plays_standard_input() {
    use std::process::{Command, Stdio};
    let a = pack(&Plan::a());
    for bytes in [
        vec![],
        a[..21].to_vec(),
        [&a[..], &release_bytes(0, 6), &SLICE].concat(),
        [&a[..], &SLICE, &[0]].concat(),
        // More than a pipe holds, in both directions.
        [a.clone(), SLICE.repeat(40_000)].concat(),
    ] {
        let mut program = Command::new(env!("CARGO_BIN_EXE_second-play"))
            .stdin(Stdio::piped())
            .stdout(Stdio::piped())
            .spawn()
            .unwrap();
        let mut stdin = program.stdin.take().unwrap();
        let writer = {
            let bytes = bytes.clone();
            std::thread::spawn(move || {
                // A refused plan may leave input unread.
                let _ = stdin.write_all(&bytes);
            })
        };
        let output = program.wait_with_output().unwrap();
        writer.join().unwrap();
        assert!(output.status.success());
        assert_eq!(String::from_utf8(output.stdout).unwrap(), played(&bytes));
    }
}
