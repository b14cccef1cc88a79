//! "Supply": S(k,t) by its definition, term by term, and the bad slice to arrive in.

use crate::layout::h;
use crate::plan::Plan;

/// S(k,t) of a project of the plan.
pub fn supply(plan: &Plan, project: usize, k: u64, t: u64) -> u64 {
    supply_and_slice(&h(plan, project), k, t).0
}

/// S(k,t) of the cards held in one frame, "the least, over the F starting slices a, of the sum over x = 0..t-1 of min(k, h(a+x))",
/// "with the earliest starting slice that attains it".
pub fn supply_and_slice(one_frame: &[u64], k: u64, t: u64) -> (u64, u64) {
    let frame = one_frame.len();
    let t = t as usize;
    // "h(s) [...] at slice s, taken modulo F", for each s that some a + x can be.
    let mut h = Vec::new();
    for s in 0..frame + t {
        h.push(one_frame.get(s % frame.max(1)).copied().unwrap_or(0));
    }
    let mut least = None;
    for a in 0..frame {
        let from_a = &h[a..a + t];
        let mut sum = 0u64;
        for x in 0..t {
            sum += k.min(from_a[x]);
        }
        least = match least {
            Some((before, earlier)) if before <= sum => Some((before, earlier)),
            _ => Some((sum, a as u64)),
        };
    }
    least.unwrap_or((0, 0))
}
