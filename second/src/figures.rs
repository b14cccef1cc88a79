//! The figures of one kind: W, and for each k of 1..q S(k,D) with its slice. No request asks for them; they are the two sides of
//! "kCi + W <= S(k,Di)", told of any plan in order, admitted or not.

use crate::answer::Answer;
use crate::layout::h;
use crate::plan::{check, Plan};
use crate::supply::supply_and_slice;
use crate::verdict::{ceiling_of, workload};

/// What is told of a kind; k stands at place k - 1, and 0 beyond q.
#[derive(Clone, Copy, Debug, Default, PartialEq, Eq)]
pub struct Figures {
    /// How many k there are: q.
    pub widths: u64,
    /// W.
    pub workload: u64,
    /// S(k,D).
    pub supply: [u64; 8],
    /// "with the earliest starting slice that attains it".
    pub slice: [u64; 8],
}

/// The record order, then "12: kind not below n".
pub fn figures(plan: &Plan, kind: u64) -> (Answer, Figures) {
    let answer = check(plan);
    if !answer.is_good() {
        return (answer, Figures::default());
    }
    if kind >= u64::from(plan.n) {
        return (Answer::refused(12), Figures::default());
    }
    let i = kind as usize;
    let held = h(plan, usize::from(plan.kinds[i].project));
    let mut told = Figures {
        widths: ceiling_of(plan, i),
        workload: workload(plan, i),
        ..Figures::default()
    };
    for k in 1..=told.widths {
        let (supply, slice) = supply_and_slice(&held, k, u64::from(plan.kinds[i].deadline));
        told.supply[k as usize - 1] = supply;
        told.slice[k as usize - 1] = slice;
    }
    (Answer::GOOD, told)
}
