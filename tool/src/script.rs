//! What a run does: the lines of a script, or releases at random.

use crate::ending::{Outcome, Trouble};
use crate::faults::{About, Fault};
use crate::input::Source;
use crate::names::{number, shown, Names};
use crate::text::words_of;
use bindings::Plan;

/// One thing to do.
#[derive(Clone, Copy, Debug, PartialEq, Eq)]
pub enum Step {
    /// Release a unit of a kind with a length.
    Release(u64, u64),
    /// Run so many slices.
    Slices(u64),
}

/// The most slices of one line.
const MOST: u64 = 1_000_000_000;

/// The steps of a script.
pub fn read(source: &Source, names: &Names) -> Outcome<Vec<Step>> {
    let mut steps = Vec::new();
    let mut faults = Vec::new();
    let bytes = source
        .bytes
        .strip_prefix(b"\xEF\xBB\xBF")
        .unwrap_or(&source.bytes);
    for (at, bytes) in bytes.split(|&byte| byte == b'\n').enumerate() {
        let step = match std::str::from_utf8(bytes) {
            Ok(line) => step(line, names),
            Err(_) => Err("this is not text".to_string()),
        };
        match step {
            Ok(step) => steps.extend(step),
            Err(words) => faults.push(Fault::unread(Some(at + 1), About::Plan, words)),
        }
    }
    match faults.is_empty() {
        true => Ok(steps),
        false => Err(Trouble::Faults(source.name.clone(), faults)),
    }
}

/// What a line says.
fn step(line: &str, names: &Names) -> Result<Option<Step>, String> {
    let words: Vec<&str> = words_of(line).iter().map(|word| word.text).collect();
    match words[..] {
        [] => Ok(None),
        ["slice"] => Ok(Some(Step::Slices(1))),
        ["slice", count] => match number(count) {
            Some(count @ 1..=MOST) => Ok(Some(Step::Slices(count))),
            _ => Err(format!("`{}` is not 1 to {MOST} slices", shown(count))),
        },
        ["release", kind, length] => {
            let kind = names
                .kind_of(kind)
                .ok_or(format!("no kind is called `{}`", shown(kind)))?;
            let length =
                number(length).ok_or(format!("`{}` is not a whole number", shown(length)))?;
            Ok(Some(Step::Release(kind, length)))
        }
        ["release", ..] => Err("`release` is followed by a kind and a length".to_string()),
        ["slice", ..] => Err("`slice` is followed by one number or nothing".to_string()),
        [other, ..] => Err(format!(
            "`{}` is not known; a line starts with `release` or `slice`",
            shown(other)
        )),
    }
}

/// Releases at random, each as soon as its separation allows or later; the same for the same seed.
pub struct Random {
    plan: Plan,
    numbers: u64,
    /// The kinds that are still to be asked before the next slice.
    kind: usize,
    slice: u64,
    slices: u64,
    /// From which slice on a kind may be released again.
    next: [u64; 16],
}

impl Random {
    /// So many slices of a plan.
    pub fn new(plan: &Plan, seed: u64, slices: u64) -> Random {
        Random {
            plan: *plan,
            numbers: seed,
            kind: 0,
            slice: 0,
            slices,
            next: [0; 16],
        }
    }

    /// The next number: splitmix64.
    fn number(&mut self) -> u64 {
        self.numbers = self.numbers.wrapping_add(0x9E37_79B9_7F4A_7C15);
        let mut mixed = self.numbers;
        mixed = (mixed ^ (mixed >> 30)).wrapping_mul(0xBF58_476D_1CE4_E5B9);
        mixed = (mixed ^ (mixed >> 27)).wrapping_mul(0x94D0_49BB_1331_11EB);
        mixed ^ (mixed >> 31)
    }
}

impl Iterator for Random {
    type Item = Step;

    fn next(&mut self) -> Option<Step> {
        if self.slice >= self.slices {
            return None;
        }
        let kinds = usize::from(self.plan.kinds);
        while self.kind < kinds {
            let place = self.kind;
            self.kind += 1;
            let kind = self.plan.kind.get(place).copied().unwrap_or_default();
            let ready = self.next.get(place).is_some_and(|next| *next <= self.slice);
            if !ready || self.number().is_multiple_of(2) {
                continue;
            }
            if let Some(next) = self.next.get_mut(place) {
                *next = self.slice + u64::from(kind.separation);
            }
            // Half of the units are as long as they may be.
            let length = u64::from(kind.length.max(1));
            let length = match self.number() % 2 {
                0 => length,
                _ => 1 + self.number() % length,
            };
            return Some(Step::Release(place as u64, length));
        }
        self.kind = 0;
        self.slice += 1;
        Some(Step::Slices(1))
    }
}
