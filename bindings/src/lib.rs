//! Safe bindings of the proved static library, whose C interface is `include/parchbeetle.h`.
//!
//! `calls` has one function for each of the library's, on slices of any length, with the answer
//! decoded. `record` has the plan and the state as records, and their images. The library is for
//! x86-64, where it is linked; elsewhere an emulated child makes the calls (`bridge.c`).

#![warn(missing_docs)]

mod answer;
#[cfg(not(target_arch = "x86_64"))]
mod bridged;
mod calls;
#[cfg(target_arch = "x86_64")]
#[allow(unsafe_code)]
mod linked;
mod record;

pub use answer::{in_words, Answer, NUMBERS};
pub use calls::{
    advance, build, check, figures, fresh, read, release, rescue, show, slot_table,
    smallest_budget, verdict, write,
};
pub use record::{Change, Figures, Kind, Plan, Project, State, Unit, Verdict};

/// Whether the library is linked, so that a call takes no more than its own time.
pub const LINKED: bool = cfg!(target_arch = "x86_64");

/// Bytes of a plan image.
pub const PLAN_IMAGE: usize = 140;
/// Bytes of a state image.
pub const STATE_IMAGE: usize = 237;
/// Bytes of a verdict: the k of each kind, then the slice of each.
pub const VERDICT_BYTES: usize = 32;
/// Bytes of a kind's figures: the workload, the supply at each k, then the slice of each.
pub const FIGURES_BYTES: usize = 44;
/// The most bytes that a plan takes.
pub const MOST_PLAN_BYTES: usize = 99;
/// The most bytes that a slot table takes.
pub const MOST_TABLE_BYTES: usize = 512;
/// Bytes of a change in the list of a rescue.
pub const CHANGE_BYTES: usize = 6;
/// The most bytes that the list of a rescue takes.
pub const MOST_LIST_BYTES: usize = 342;
/// The most bytes that a row takes.
pub const MOST_ROW_BYTES: usize = 8;
