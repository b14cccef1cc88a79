//! A first difference made small: bytes are taken away and lowered as long as the difference stays.

use crate::interface::{Case, Op, PLAN_IMAGE, STATE_IMAGE, SUMS_AT, UNIT, UNITS_AT};

/// At most so many tries.
const TRIES: u32 = 20_000;

/// Keeps the smallest that still differs.
struct Smallest<'a, T> {
    best: T,
    differs: &'a mut dyn FnMut(&T) -> bool,
    tries: u32,
}

impl<T: PartialEq> Smallest<'_, T> {
    fn try_one(&mut self, tried: T) -> bool {
        if tried == self.best || self.tries == 0 {
            return false;
        }
        self.tries -= 1;
        let better = (self.differs)(&tried);
        if better {
            self.best = tried;
        }
        better
    }
}

impl Smallest<'_, Case> {
    /// First with the stored sums moved as what is left has been, then as it is.
    fn try_with_sums(&mut self, tried: Case) -> bool {
        let moved = with_sums_moved(&self.best, &tried);
        self.try_one(moved) || self.try_one(tried)
    }
}

/// A state image with each stored sum changed by as much as what its project has left.
fn with_sums_moved(before: &Case, tried: &Case) -> Case {
    let mut moved = tried.clone();
    let (was, is) = (left_by_project(before), left_by_project(tried));
    for (place, (was, is)) in was.into_iter().zip(is).enumerate() {
        let at = SUMS_AT + 2 * place;
        if let Some([high, low]) = moved.given.get_mut(at..at + 2) {
            let sum = u16::from_be_bytes([*high, *low]);
            [*high, *low] = sum.wrapping_add(is.wrapping_sub(was)).to_be_bytes();
        }
    }
    moved
}

/// What each project has left in a state image; nothing in any other.
fn left_by_project(case: &Case) -> [u16; 8] {
    let mut sums = [0u16; 8];
    let image = &case.given;
    if matches!(case.op, Op::Release | Op::Show | Op::Advance) && image.len() >= STATE_IMAGE {
        for kind in 0..usize::from(image[2]).min(16) {
            let left = UNITS_AT + UNIT * kind + 3;
            let project = usize::from(image[28 + 7 * kind]) % 8;
            let own = u16::from_be_bytes([image[left], image[left + 1]]);
            sums[project] = sums[project].wrapping_add(own);
        }
    }
    sums
}

/// A smaller call on which the two sides still differ.
pub fn smaller_case(case: &Case, differs: &mut dyn FnMut(&Case) -> bool) -> Case {
    let mut smallest = Smallest {
        best: case.clone(),
        differs,
        tries: TRIES,
    };
    loop {
        let mut better = false;
        for kind in (0..16).rev() {
            let tried = without_kind(&smallest.best, kind);
            better |= smallest.try_with_sums(tried);
        }
        for place in (0..smallest.best.given.len()).rev() {
            better |= lower_byte(&mut smallest, place, |case| &mut case.given);
        }
        for place in 0..smallest.best.lent.len() {
            better |= lower_byte(&mut smallest, place, |case| &mut case.lent);
        }
        for place in 0..smallest.best.list.len() {
            better |= lower_byte(&mut smallest, place, |case| &mut case.list);
        }
        for cut in [8, 1] {
            while smallest.best.given.len() >= cut {
                let mut tried = smallest.best.clone();
                tried.given.truncate(tried.given.len() - cut);
                if !smallest.try_one(tried) {
                    break;
                }
                better = true;
            }
            while smallest.best.lent.len() >= cut {
                let mut tried = smallest.best.clone();
                tried.lent.truncate(tried.lent.len() - cut);
                if !smallest.try_one(tried) {
                    break;
                }
                better = true;
            }
            while smallest.best.list.len() >= cut {
                let mut tried = smallest.best.clone();
                tried.list.truncate(tried.list.len() - cut);
                if !smallest.try_one(tried) {
                    break;
                }
                better = true;
            }
        }
        for to in [|v: u64| v & 0xFF, |v| v / 2, |v: u64| v.saturating_sub(1)] {
            for at in 0..2 {
                let mut tried = smallest.best.clone();
                tried.numbers[at] = to(tried.numbers[at]);
                better |= smallest.try_one(tried);
            }
        }
        if !better {
            return smallest.best;
        }
    }
}

/// One byte set to 0, halved or lowered by one.
fn lower_byte(
    smallest: &mut Smallest<Case>,
    place: usize,
    buffer: fn(&mut Case) -> &mut Vec<u8>,
) -> bool {
    for lower in [|_| 0, |v| v / 2, |v: u8| v.saturating_sub(1)] {
        let mut tried = smallest.best.clone();
        let bytes = buffer(&mut tried);
        if place >= bytes.len() {
            return false;
        }
        bytes[place] = lower(bytes[place]);
        if smallest.try_with_sums(tried) {
            return true;
        }
    }
    false
}

/// The image without one kind: the later kinds move up, in the plan and in the state.
fn without_kind(case: &Case, kind: usize) -> Case {
    let mut tried = case.clone();
    let image = &mut tried.given;
    if let (Op::Read | Op::Rescue, &[first, second, ..]) = (case.op, &image[..]) {
        // Plan bytes: p is the low half of the first, n the high five bits of the second.
        let at = 3 + 2 * usize::from(first & 15) + 5 * kind;
        if kind < usize::from(second >> 3) && at + 5 <= image.len() {
            image[1] -= 1 << 3;
            image.drain(at..at + 5);
        }
        return tried;
    }
    if matches!(case.op, Op::Read | Op::Build | Op::Rescue)
        || image.len() < PLAN_IMAGE
        || kind >= usize::from(image[2])
    {
        return tried;
    }
    image[2] -= 1;
    let mut move_up = |from: usize, bytes: usize| {
        image[from + bytes * kind..from + bytes * 16].rotate_left(bytes);
        image[from + bytes * 15..from + bytes * 16].fill(0);
    };
    move_up(28, 7);
    if matches!(case.op, Op::Release | Op::Show | Op::Advance) && case.given.len() >= STATE_IMAGE {
        move_up(UNITS_AT, UNIT);
    }
    if matches!(case.op, Op::Release | Op::Figures) && tried.numbers[0] > kind as u64 {
        tried.numbers[0] -= 1;
    }
    tried
}

/// A shorter stream on which the two players still differ: commands are taken out, then single bytes lowered.
pub fn smaller_stream(input: &[u8], differs: &mut dyn FnMut(&Vec<u8>) -> bool) -> Vec<u8> {
    let mut smallest = Smallest {
        best: input.to_vec(),
        differs,
        tries: 2_000,
    };
    loop {
        let mut better = false;
        let plan = second::bytes::bytes_asked_for(&smallest.best);
        for piece in [300, 48, 12, 3, 1] {
            let mut end = smallest.best.len();
            while end >= plan + piece {
                let mut tried = smallest.best.clone();
                tried.drain(end - piece..end);
                better |= smallest.try_one(tried);
                end -= piece;
            }
        }
        if !better {
            return smallest.best;
        }
    }
}
