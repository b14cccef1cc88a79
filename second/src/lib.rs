//! The independent second program: documents 01 and 02 by the most literal reading of each sentence.
//!
//! Nothing here is meant to be fast, and nothing here is shared with the proved program.
//! Each operation answers any record whatever, also one that no plan bytes can express.

#![forbid(unsafe_code)]
#![warn(missing_docs)]
// Sums are written as 01 writes them, over x = 0..t-1.
#![allow(clippy::needless_range_loop)]

pub mod absolute_clock;
pub mod answer;
pub mod bytes;
pub mod figures;
pub mod layout;
pub mod one_kind;
pub mod plan;
pub mod play;
pub mod rack;
pub mod rescue;
pub mod smallest;
pub mod supply;
pub mod verdict;

pub use answer::Answer;
pub use bytes::{read, write};
pub use figures::{figures, Figures};
pub use layout::slot_table;
pub use one_kind::build;
pub use plan::{check, Kind, Plan, Project};
pub use play::{play, play_by_absolute_clock};
pub use rack::{advance, fresh, release, show, slice, KindState, State};
pub use rescue::rescue;
pub use smallest::smallest_budget;
pub use verdict::verdict;
