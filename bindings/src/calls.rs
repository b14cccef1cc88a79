//! The functions of the library: buffers of any length, the answer decoded.

use crate::Answer;

#[cfg(not(target_arch = "x86_64"))]
use crate::bridged as library;
#[cfg(target_arch = "x86_64")]
use crate::linked as library;

/// Is the plan of this image in order?
pub fn check(plan: &[u8]) -> Answer {
    Answer::of_word(library::check(plan))
}

/// Reads plan bytes into a plan image; the count is how many bytes the plan took.
pub fn read(bytes: &[u8], plan: &mut [u8]) -> Answer {
    Answer::of_word(library::read(bytes, plan))
}

/// Writes the bytes of an image's plan; the count is how many.
pub fn write(plan: &[u8], out: &mut [u8]) -> Answer {
    Answer::of_word(library::write(plan, out))
}

/// Writes the slot table of an image's plan; the count is how many bytes.
pub fn slot_table(plan: &[u8], out: &mut [u8]) -> Answer {
    Answer::of_word(library::slot_table(plan, out))
}

/// Judges the plan of an image: the least k of each kind, and then the slice beside each.
pub fn verdict(plan: &[u8], k: &mut [u8]) -> Answer {
    Answer::of_word(library::verdict(plan, k))
}

/// The smallest budget of a project of an image's plan; the count is that budget.
pub fn smallest_budget(plan: &[u8], project: u64) -> Answer {
    Answer::of_word(library::smallest_budget(plan, project))
}

/// Builds a plan of one-kind projects from a list of four bytes a kind: writes a plan image.
pub fn build(cards: u64, list: &[u8], plan: &mut [u8]) -> Answer {
    Answer::of_word(library::build(cards, list, plan))
}

/// Rescues damaged plan bytes: writes a plan image, and six bytes for each change; the count is how many bytes of these.
pub fn rescue(bytes: &[u8], plan: &mut [u8], list: &mut [u8]) -> Answer {
    Answer::of_word(library::rescue(bytes, plan, list))
}

/// Starts fresh on an image's plan: writes a state image.
pub fn fresh(plan: &[u8], state: &mut [u8]) -> Answer {
    Answer::of_word(library::fresh(plan, state))
}

/// Releases a unit of a kind with a length, in a state image.
pub fn release(state: &mut [u8], kind: u64, e: u64) -> Answer {
    Answer::of_word(library::release(state, kind, e))
}

/// Shows the row of the next slice of a state image.
pub fn show(state: &[u8], row: &mut [u8]) -> Answer {
    Answer::of_word(library::show(state, row))
}

/// Runs a slice in a state image.
pub fn advance(state: &mut [u8]) -> Answer {
    Answer::of_word(library::advance(state))
}

/// The figures of a kind of an image's plan, admitted or not; the count is how many k there are.
pub fn figures(plan: &[u8], kind: u64, out: &mut [u8]) -> Answer {
    Answer::of_word(library::figures(plan, kind, out))
}
