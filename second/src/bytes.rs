//! "Plan bytes": "Bit-packed, most significant bit first, no gaps but the spare bits, which are zero."

use crate::answer::Answer;
use crate::plan::{
    budgets_sum_above, check, first_bad_kind, first_bad_project, header_out_of_range, Kind, Plan,
    Project,
};

/// The table's last column: the header takes 3 bytes.
pub const HEADER_BYTES: usize = 3;
/// The table's last column: each project takes 2 bytes.
pub const PROJECT_BYTES: usize = 2;
/// The table's last column: each unit kind takes 5 bytes.
pub const KIND_BYTES: usize = 5;
/// "A plan takes 3 + 2p + 5n bytes, at most 99."
pub const MOST_BYTES: usize = 99;

/// "A plan takes 3 + 2p + 5n bytes".
pub fn plan_bytes(p: u8, n: u8) -> usize {
    HEADER_BYTES + PROJECT_BYTES * usize::from(p) + KIND_BYTES * usize::from(n)
}

/// "Bit-packed, most significant bit first": takes one field after the other.
pub(crate) struct BitsIn<'a> {
    pub(crate) bytes: &'a [u8],
    pub(crate) next: usize,
}

impl BitsIn<'_> {
    fn take(&mut self, width: u32) -> u16 {
        let mut value = 0u16;
        for _ in 0..width {
            let byte = self.bytes.get(self.next / 8).copied().unwrap_or(0);
            let bit = (byte >> (7 - self.next % 8)) & 1;
            value = (value << 1) | u16::from(bit);
            self.next += 1;
        }
        value
    }
}

/// "Bit-packed, most significant bit first": puts one field after the other.
struct BitsOut {
    bytes: Vec<u8>,
    next: usize,
}

impl BitsOut {
    fn put(&mut self, value: u16, width: u32) {
        for place in (0..width).rev() {
            if self.next.is_multiple_of(8) {
                self.bytes.push(0);
            }
            let bit = ((value >> place) & 1) as u8;
            if let Some(last) = self.bytes.last_mut() {
                *last |= bit << (7 - self.next % 8);
            }
            self.next += 1;
        }
    }
}

/// The header's fields in order: "m 4, p 4, n 5, F 7, spare 4"; gives back the spare bits.
pub(crate) fn take_header(bits: &mut BitsIn, plan: &mut Plan) -> u16 {
    plan.m = bits.take(4) as u8;
    plan.p = bits.take(4) as u8;
    plan.n = bits.take(5) as u8;
    plan.frame = bits.take(7) as u8;
    bits.take(4)
}

/// Each project's fields in order: "q 4, B 10, spare 2"; gives back the spare bits.
pub(crate) fn take_project(bits: &mut BitsIn, project: &mut Project) -> u16 {
    project.ceiling = bits.take(4) as u8;
    project.budget = bits.take(10);
    bits.take(2)
}

/// Each unit kind's fields in order: "project from 0 (3), T 12, D 12, C 12, spare 1"; gives back the spare bit.
pub(crate) fn take_kind(bits: &mut BitsIn, kind: &mut Kind) -> u16 {
    kind.project = bits.take(3) as u8;
    kind.separation = bits.take(12);
    kind.deadline = bits.take(12);
    kind.length = bits.take(12);
    bits.take(1)
}

/// How many bytes the plan at the front asks for: 3 until a header in range is there, then "the header's total".
pub fn bytes_asked_for(bytes: &[u8]) -> usize {
    let mut plan = Plan::default();
    if bytes.len() < HEADER_BYTES {
        return HEADER_BYTES;
    }
    take_header(&mut BitsIn { bytes, next: 0 }, &mut plan);
    if header_out_of_range(&plan) {
        return HEADER_BYTES;
    }
    plan_bytes(plan.p, plan.n)
}

/// "Bytes: 1 for the first three bytes, 2, 1 for the total, 3, all projects for 4, then kind by kind 5 before 6, then 7."
pub fn read(bytes: &[u8]) -> (Answer, Plan, usize) {
    match read_or_refuse(bytes) {
        Ok((plan, taken)) => (Answer::GOOD, plan, taken),
        // "A refused read gives an all-zero plan and 0 bytes taken".
        Err(answer) => (answer, Plan::default(), 0),
    }
}

fn read_or_refuse(bytes: &[u8]) -> Result<(Plan, usize), Answer> {
    // "1 for the first three bytes".
    if bytes.len() < HEADER_BYTES {
        return Err(Answer::refused(1));
    }
    let mut bits = BitsIn { bytes, next: 0 };
    let mut plan = Plan::default();
    let mut spare = take_header(&mut bits, &mut plan);
    // 2: "m, p, n or F out of range".
    if header_out_of_range(&plan) {
        return Err(Answer::refused(2));
    }
    // "1 for the total".
    let total = plan_bytes(plan.p, plan.n);
    if bytes.len() < total {
        return Err(Answer::refused(1));
    }
    // 3: "a spare bit [...] not zero", every spare bit of the whole plan before any 4.
    let (p, n) = (usize::from(plan.p), usize::from(plan.n));
    for project in &mut plan.projects[..p] {
        spare |= take_project(&mut bits, project);
    }
    for kind in &mut plan.kinds[..n] {
        spare |= take_kind(&mut bits, kind);
    }
    if spare != 0 {
        return Err(Answer::refused(3));
    }
    // "all projects for 4".
    if let Some(answer) = first_bad_project(&plan, None) {
        return Err(answer);
    }
    // "then kind by kind 5 before 6".
    if let Some(answer) = first_bad_kind(&plan) {
        return Err(answer);
    }
    // "then 7".
    if budgets_sum_above(&plan) {
        return Err(Answer::refused(7));
    }
    Ok((plan, total))
}

/// The table "Plan bytes" for the used places of any record; a field too wide for its bits keeps its low bits.
pub fn pack(plan: &Plan) -> Vec<u8> {
    let mut bits = BitsOut {
        bytes: Vec::new(),
        next: 0,
    };
    bits.put(u16::from(plan.m), 4);
    bits.put(u16::from(plan.p), 4);
    bits.put(u16::from(plan.n), 5);
    bits.put(u16::from(plan.frame), 7);
    bits.put(0, 4);
    for project in plan.used_projects() {
        bits.put(u16::from(project.ceiling), 4);
        bits.put(project.budget, 10);
        bits.put(0, 2);
    }
    for kind in plan.used_kinds() {
        bits.put(u16::from(kind.project), 3);
        bits.put(kind.separation, 12);
        bits.put(kind.deadline, 12);
        bits.put(kind.length, 12);
        bits.put(0, 1);
    }
    bits.bytes
}

/// "Writing plan bytes [...] adds 9 and not 8"; "Writers answer with the count of bytes written, 0 on a refusal."
pub fn write(plan: &Plan, buffer: &mut [u8]) -> (Answer, usize) {
    let answer = check(plan);
    if !answer.is_good() {
        return (answer, 0);
    }
    let bytes = pack(plan);
    // 9: "buffer shorter than needed".
    if buffer.len() < bytes.len() {
        return (Answer::refused(9), 0);
    }
    // "On success, bytes past those needed keep their value."
    buffer[..bytes.len()].copy_from_slice(&bytes);
    (Answer::GOOD, bytes.len())
}
