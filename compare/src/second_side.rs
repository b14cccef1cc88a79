//! The second program behind the same interface.

use crate::interface::{
    plan_image, plan_of, refused, state_image, state_of, word, Side, FIGURES_BYTES, PLAN_IMAGE,
    STATE_IMAGE, VERDICT_BYTES,
};
use second::State;

/// The second program.
#[derive(Clone, Copy, Debug)]
pub struct Second;

/// The state in a given image, or the word that refuses the image.
pub fn state_or_refuse(image: &[u8]) -> Result<State, u64> {
    if image.len() < STATE_IMAGE {
        return Err(refused(9));
    }
    // A released byte other than 0 or 1: 10, after the record order.
    state_of(image).ok_or_else(|| match second::check(&plan_of(image)) {
        answer if answer.is_good() => refused(10),
        answer => word(answer, 0),
    })
}

/// The bytes of a kind's figures.
pub fn figures_bytes(told: &second::Figures) -> [u8; FIGURES_BYTES] {
    let mut bytes = [0; FIGURES_BYTES];
    bytes[..4].copy_from_slice(&(told.workload as u32).to_be_bytes());
    for place in 0..8 {
        let supply = (told.supply[place] as u32).to_be_bytes();
        bytes[4 + 4 * place..8 + 4 * place].copy_from_slice(&supply);
        bytes[36 + place] = told.slice[place] as u8;
    }
    bytes
}

impl Side for Second {
    fn check(&self, plan: &[u8]) -> u64 {
        if plan.len() < PLAN_IMAGE {
            return refused(9);
        }
        word(second::check(&plan_of(plan)), 0)
    }

    fn read(&self, bytes: &[u8], plan: &mut [u8]) -> u64 {
        let (answer, found, taken) = second::read(bytes);
        if !answer.is_good() {
            return word(answer, taken);
        }
        if plan.len() < PLAN_IMAGE {
            return refused(9);
        }
        plan[..PLAN_IMAGE].copy_from_slice(&plan_image(&found));
        word(answer, taken)
    }

    fn write(&self, plan: &[u8], out: &mut [u8]) -> u64 {
        if plan.len() < PLAN_IMAGE {
            return refused(9);
        }
        let (answer, count) = second::write(&plan_of(plan), out);
        word(answer, count)
    }

    fn slot_table(&self, plan: &[u8], out: &mut [u8]) -> u64 {
        if plan.len() < PLAN_IMAGE {
            return refused(9);
        }
        let (answer, count) = second::slot_table(&plan_of(plan), out);
        word(answer, count)
    }

    fn verdict(&self, plan: &[u8], k: &mut [u8]) -> u64 {
        if plan.len() < PLAN_IMAGE {
            return refused(9);
        }
        let (answer, ks, slices) = second::verdict(&plan_of(plan));
        if !answer.is_good() {
            return word(answer, 0);
        }
        if k.len() < VERDICT_BYTES {
            return refused(9);
        }
        k[..VERDICT_BYTES].copy_from_slice(&[ks, slices].concat());
        word(answer, 0)
    }

    fn smallest_budget(&self, plan: &[u8], project: u64) -> u64 {
        if plan.len() < PLAN_IMAGE {
            return refused(9);
        }
        let (answer, budget) = second::smallest_budget(&plan_of(plan), project);
        word(answer, budget as usize)
    }

    fn build(&self, cards: u64, list: &[u8], plan: &mut [u8]) -> u64 {
        let (answer, built) = second::build(cards, &second::one_kind::listed(list));
        if !answer.is_good() {
            return word(answer, 0);
        }
        if plan.len() < PLAN_IMAGE {
            return refused(9);
        }
        plan[..PLAN_IMAGE].copy_from_slice(&plan_image(&built));
        word(answer, 0)
    }

    fn rescue(&self, bytes: &[u8], plan: &mut [u8], list: &mut [u8]) -> u64 {
        let mut written = list.to_vec();
        let (answer, rescued, count) = second::rescue(bytes, &mut written);
        if !answer.is_good() {
            return word(answer, 0);
        }
        if plan.len() < PLAN_IMAGE {
            return refused(9);
        }
        plan[..PLAN_IMAGE].copy_from_slice(&plan_image(&rescued));
        list.copy_from_slice(&written);
        word(answer, count)
    }

    fn fresh(&self, plan: &[u8], state: &mut [u8]) -> u64 {
        if plan.len() < PLAN_IMAGE {
            return refused(9);
        }
        let (answer, found) = second::fresh(&plan_of(plan));
        if !answer.is_good() {
            return word(answer, 0);
        }
        if state.len() < STATE_IMAGE {
            return refused(9);
        }
        state[..STATE_IMAGE].copy_from_slice(&state_image(&found));
        word(answer, 0)
    }

    fn release(&self, state: &mut [u8], kind: u64, e: u64) -> u64 {
        match state_or_refuse(state) {
            Ok(found) => {
                let (answer, next) = second::release(&found, kind, e);
                state[..STATE_IMAGE].copy_from_slice(&state_image(&next));
                word(answer, 0)
            }
            Err(word) => word,
        }
    }

    fn show(&self, state: &[u8], row: &mut [u8]) -> u64 {
        match state_or_refuse(state) {
            Ok(found) => word(second::show(&found, row), 0),
            Err(word) => word,
        }
    }

    fn advance(&self, state: &mut [u8]) -> u64 {
        match state_or_refuse(state) {
            Ok(found) => {
                let (answer, next) = second::advance(&found);
                state[..STATE_IMAGE].copy_from_slice(&state_image(&next));
                word(answer, 0)
            }
            Err(word) => word,
        }
    }

    fn figures(&self, plan: &[u8], kind: u64, out: &mut [u8]) -> u64 {
        if plan.len() < PLAN_IMAGE {
            return refused(9);
        }
        let (answer, told) = second::figures(&plan_of(plan), kind);
        if !answer.is_good() {
            return word(answer, 0);
        }
        if out.len() < FIGURES_BYTES {
            return refused(9);
        }
        out[..FIGURES_BYTES].copy_from_slice(&figures_bytes(&told));
        word(answer, told.widths as usize)
    }
}
