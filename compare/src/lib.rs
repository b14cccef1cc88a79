//! The proved side and the second program, compared byte by byte.
//!
//! Both sides are met through one interface on bytes (`interface`): the proved side is the static
//! library through its bindings (`proved`), the other is the second program (`second_side`); in runs from a fresh start both are
//! held to the old rules as well (`beside`).
//! `faulty` is a copy of the second program with one rule altered, to show that the comparison can
//! fail.

#![forbid(unsafe_code)]

pub mod beside;
pub mod cases;
pub mod faulty;
pub mod flips;
pub mod interface;
pub mod proved;
pub mod run;
pub mod second_side;
pub mod shrink;
pub mod streams;
pub mod table;
