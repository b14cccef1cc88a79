//! The proved side: the static library, through its safe bindings.

use crate::interface::Side;

/// The static library.
#[derive(Clone, Copy, Debug)]
pub struct Proved;

impl Side for Proved {
    fn check(&self, plan: &[u8]) -> u64 {
        bindings::check(plan).word()
    }

    fn read(&self, bytes: &[u8], plan: &mut [u8]) -> u64 {
        bindings::read(bytes, plan).word()
    }

    fn write(&self, plan: &[u8], out: &mut [u8]) -> u64 {
        bindings::write(plan, out).word()
    }

    fn slot_table(&self, plan: &[u8], out: &mut [u8]) -> u64 {
        bindings::slot_table(plan, out).word()
    }

    fn verdict(&self, plan: &[u8], k: &mut [u8]) -> u64 {
        bindings::verdict(plan, k).word()
    }

    fn smallest_budget(&self, plan: &[u8], project: u64) -> u64 {
        bindings::smallest_budget(plan, project).word()
    }

    fn build(&self, cards: u64, list: &[u8], plan: &mut [u8]) -> u64 {
        bindings::build(cards, list, plan).word()
    }

    fn rescue(&self, bytes: &[u8], plan: &mut [u8], list: &mut [u8]) -> u64 {
        bindings::rescue(bytes, plan, list).word()
    }

    fn fresh(&self, plan: &[u8], state: &mut [u8]) -> u64 {
        bindings::fresh(plan, state).word()
    }

    fn release(&self, state: &mut [u8], kind: u64, e: u64) -> u64 {
        bindings::release(state, kind, e).word()
    }

    fn show(&self, state: &[u8], row: &mut [u8]) -> u64 {
        bindings::show(state, row).word()
    }

    fn advance(&self, state: &mut [u8]) -> u64 {
        bindings::advance(state).word()
    }

    fn figures(&self, plan: &[u8], kind: u64, out: &mut [u8]) -> u64 {
        bindings::figures(plan, kind, out).word()
    }
}
