//! What is timed and against what: the proved library, the second program, and a tuned program.

#![forbid(unsafe_code)]

pub mod inputs;
pub mod timing;
pub mod tuned;
