//! The functions of `include/parchbeetle.h`, linked. The only `unsafe` code is here.
//!
//! Safety, for each call: a pointer and its length come from one slice, and so the pointer is valid
//! for its length and not null; a buffer that is written comes from a `&mut` slice, so it overlaps no
//! other; the library keeps no pointer.

extern "C" {
    fn parchbeetle_check(plan: *const u8, plan_len: usize) -> u64;
    fn parchbeetle_read(bytes: *const u8, bytes_len: usize, plan: *mut u8, plan_len: usize) -> u64;
    fn parchbeetle_write(plan: *const u8, plan_len: usize, out: *mut u8, out_len: usize) -> u64;
    fn parchbeetle_slot_table(
        plan: *const u8,
        plan_len: usize,
        out: *mut u8,
        out_len: usize,
    ) -> u64;
    fn parchbeetle_verdict(plan: *const u8, plan_len: usize, k: *mut u8, k_len: usize) -> u64;
    fn parchbeetle_smallest_budget(plan: *const u8, plan_len: usize, project: u64) -> u64;
    fn parchbeetle_build(
        cards: u64,
        list: *const u8,
        list_len: usize,
        plan: *mut u8,
        plan_len: usize,
    ) -> u64;
    fn parchbeetle_rescue(
        bytes: *const u8,
        bytes_len: usize,
        plan: *mut u8,
        plan_len: usize,
        list: *mut u8,
        list_len: usize,
    ) -> u64;
    fn parchbeetle_fresh(plan: *const u8, plan_len: usize, state: *mut u8, state_len: usize)
        -> u64;
    fn parchbeetle_release(state: *mut u8, state_len: usize, kind: u64, e: u64) -> u64;
    fn parchbeetle_show(state: *const u8, state_len: usize, row: *mut u8, row_len: usize) -> u64;
    fn parchbeetle_advance(state: *mut u8, state_len: usize) -> u64;
    fn parchbeetle_figures(
        plan: *const u8,
        plan_len: usize,
        kind: u64,
        out: *mut u8,
        out_len: usize,
    ) -> u64;
}

pub fn check(plan: &[u8]) -> u64 {
    unsafe { parchbeetle_check(plan.as_ptr(), plan.len()) }
}

pub fn read(bytes: &[u8], plan: &mut [u8]) -> u64 {
    unsafe { parchbeetle_read(bytes.as_ptr(), bytes.len(), plan.as_mut_ptr(), plan.len()) }
}

pub fn write(plan: &[u8], out: &mut [u8]) -> u64 {
    unsafe { parchbeetle_write(plan.as_ptr(), plan.len(), out.as_mut_ptr(), out.len()) }
}

pub fn slot_table(plan: &[u8], out: &mut [u8]) -> u64 {
    unsafe { parchbeetle_slot_table(plan.as_ptr(), plan.len(), out.as_mut_ptr(), out.len()) }
}

pub fn verdict(plan: &[u8], k: &mut [u8]) -> u64 {
    unsafe { parchbeetle_verdict(plan.as_ptr(), plan.len(), k.as_mut_ptr(), k.len()) }
}

pub fn smallest_budget(plan: &[u8], project: u64) -> u64 {
    unsafe { parchbeetle_smallest_budget(plan.as_ptr(), plan.len(), project) }
}

pub fn build(cards: u64, list: &[u8], plan: &mut [u8]) -> u64 {
    unsafe {
        parchbeetle_build(
            cards,
            list.as_ptr(),
            list.len(),
            plan.as_mut_ptr(),
            plan.len(),
        )
    }
}

pub fn rescue(bytes: &[u8], plan: &mut [u8], list: &mut [u8]) -> u64 {
    unsafe {
        parchbeetle_rescue(
            bytes.as_ptr(),
            bytes.len(),
            plan.as_mut_ptr(),
            plan.len(),
            list.as_mut_ptr(),
            list.len(),
        )
    }
}

pub fn fresh(plan: &[u8], state: &mut [u8]) -> u64 {
    unsafe { parchbeetle_fresh(plan.as_ptr(), plan.len(), state.as_mut_ptr(), state.len()) }
}

pub fn release(state: &mut [u8], kind: u64, e: u64) -> u64 {
    unsafe { parchbeetle_release(state.as_mut_ptr(), state.len(), kind, e) }
}

pub fn show(state: &[u8], row: &mut [u8]) -> u64 {
    unsafe { parchbeetle_show(state.as_ptr(), state.len(), row.as_mut_ptr(), row.len()) }
}

pub fn advance(state: &mut [u8]) -> u64 {
    unsafe { parchbeetle_advance(state.as_mut_ptr(), state.len()) }
}

pub fn figures(plan: &[u8], kind: u64, out: &mut [u8]) -> u64 {
    unsafe { parchbeetle_figures(plan.as_ptr(), plan.len(), kind, out.as_mut_ptr(), out.len()) }
}
