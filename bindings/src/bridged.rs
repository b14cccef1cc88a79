//! The functions of `include/parchbeetle.h` on a machine that the library is not for: `bridge.c`, built
//! for x86-64 and run by an emulator, makes the calls. One child serves each thread, one call after the
//! other.

use std::cell::RefCell;
use std::io::{self, Read, Write};
use std::process::{exit, Child, ChildStdin, ChildStdout, Command, Stdio};

struct Bridge {
    child: Child,
    to: ChildStdin,
    from: ChildStdout,
    bytes: Vec<u8>,
}

thread_local! {
    static BRIDGE: RefCell<Bridge> = RefCell::new(Bridge::start());
}

impl Drop for Bridge {
    fn drop(&mut self) {
        // It is between two calls, and has nothing to lose.
        let _ = self.child.kill();
        let _ = self.child.wait();
    }
}

/// Without the bridge there is no library: nothing can be answered, and the program ends as one that cannot read its input.
fn ended(what: &str, error: &io::Error) -> ! {
    eprintln!("{what}: {error}");
    exit(2);
}

impl Bridge {
    /// The words that start it are the build script's.
    fn start() -> Bridge {
        let mut words = env!("PARCHBEETLE_BRIDGE").split(' ');
        let mut child = Command::new(words.next().unwrap_or_default())
            .args(words)
            .stdin(Stdio::piped())
            .stdout(Stdio::piped())
            .spawn()
            .unwrap_or_else(|error| ended("the bridge to the library cannot be started", &error));
        let (Some(to), Some(from)) = (child.stdin.take(), child.stdout.take()) else {
            unreachable!("both are pipes");
        };
        Bridge {
            child,
            to,
            from,
            bytes: Vec::new(),
        }
    }

    /// Sends a call; the function's number is the bridge's.
    fn send(&mut self, function: u8, buffers: [&[u8]; 3], numbers: [u64; 2]) {
        self.bytes.clear();
        self.bytes.push(function);
        for buffer in buffers {
            self.bytes.extend((buffer.len() as u32).to_be_bytes());
        }
        for number in numbers {
            self.bytes.extend(number.to_be_bytes());
        }
        for buffer in buffers {
            self.bytes.extend(buffer);
        }
        if let Err(error) = self.to.write_all(&self.bytes) {
            ended("the bridge to the library ended", &error);
        }
    }

    /// What comes back: the answer, and so many bytes of the buffers.
    fn received(&mut self, count: usize) -> (u64, &[u8]) {
        self.bytes.resize(8 + count, 0);
        if let Err(error) = self.from.read_exact(&mut self.bytes) {
            ended("the bridge to the library ended", &error);
        }
        let (answer, buffers) = self.bytes.split_at(8);
        let mut own = [0; 8];
        own.copy_from_slice(answer);
        (u64::from_be_bytes(own), buffers)
    }
}

/// One call; the first buffer as it is after it comes back, the others are changed in place.
fn call(function: u8, given: &[u8], lent: [&mut [u8]; 2], numbers: [u64; 2]) -> (u64, Vec<u8>) {
    let [one, other] = lent;
    BRIDGE.with_borrow_mut(|bridge| {
        bridge.send(function, [given, one, other], numbers);
        let (answer, buffers) = bridge.received(given.len() + one.len() + other.len());
        let (first, rest) = buffers.split_at(given.len());
        let (second, third) = rest.split_at(one.len());
        one.copy_from_slice(second);
        other.copy_from_slice(third);
        (answer, first.to_vec())
    })
}

/// A call whose first buffer is only read.
fn reading(function: u8, given: &[u8], lent: &mut [u8], number: u64) -> u64 {
    with_both(function, given, [lent, &mut []], number)
}

/// A call whose first buffer is only read, with two that are written.
fn with_both(function: u8, given: &[u8], lent: [&mut [u8]; 2], number: u64) -> u64 {
    let (answer, after) = call(function, given, lent, [number, 0]);
    assert!(
        after == given,
        "function {function} changed a buffer that it reads"
    );
    answer
}

/// A call whose only buffer is changed in place.
fn changing(function: u8, state: &mut [u8], numbers: [u64; 2]) -> u64 {
    let (answer, after) = call(function, state, [&mut [], &mut []], numbers);
    state.copy_from_slice(&after);
    answer
}

pub fn check(plan: &[u8]) -> u64 {
    reading(0, plan, &mut [], 0)
}

pub fn read(bytes: &[u8], plan: &mut [u8]) -> u64 {
    reading(1, bytes, plan, 0)
}

pub fn write(plan: &[u8], out: &mut [u8]) -> u64 {
    reading(2, plan, out, 0)
}

pub fn slot_table(plan: &[u8], out: &mut [u8]) -> u64 {
    reading(3, plan, out, 0)
}

pub fn verdict(plan: &[u8], k: &mut [u8]) -> u64 {
    reading(4, plan, k, 0)
}

pub fn smallest_budget(plan: &[u8], project: u64) -> u64 {
    reading(5, plan, &mut [], project)
}

pub fn build(cards: u64, list: &[u8], plan: &mut [u8]) -> u64 {
    reading(6, list, plan, cards)
}

pub fn rescue(bytes: &[u8], plan: &mut [u8], list: &mut [u8]) -> u64 {
    with_both(7, bytes, [plan, list], 0)
}

pub fn fresh(plan: &[u8], state: &mut [u8]) -> u64 {
    reading(8, plan, state, 0)
}

pub fn release(state: &mut [u8], kind: u64, e: u64) -> u64 {
    changing(9, state, [kind, e])
}

pub fn show(state: &[u8], row: &mut [u8]) -> u64 {
    reading(10, state, row, 0)
}

pub fn advance(state: &mut [u8]) -> u64 {
    changing(11, state, [0; 2])
}

pub fn figures(plan: &[u8], kind: u64, out: &mut [u8]) -> u64 {
    reading(12, plan, out, kind)
}
