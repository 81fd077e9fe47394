//! The operations under C names, as `include/topjeska.h` has them but for the prefix.

#![allow(unsafe_code)]

use crate::{CheckAnswer, DeadlockAnswer, PlanAnswer, ReplayAnswer, Sheet};

/// The bits of options: a sheet has lengths, and planning is the panel's.
const LENGTHS: u16 = 1;
const PANEL: u16 = 2;

/// # Safety
/// The pointer is to `len` numbers that nothing writes meanwhile, or `len` is 0.
unsafe fn list<'a>(numbers: *const u16, len: usize) -> &'a [u16] {
    if len == 0 {
        &[]
    } else {
        std::slice::from_raw_parts(numbers, len)
    }
}

/// # Safety
/// The pointer is to `len` numbers that nothing else uses meanwhile, or `len` is 0.
unsafe fn space<'a>(numbers: *mut u16, len: usize) -> &'a mut [u16] {
    if len == 0 {
        &mut []
    } else {
        std::slice::from_raw_parts_mut(numbers, len)
    }
}

/// # Safety
/// Each pointer is to as many numbers as the length after it says, the lengths where the options have them.
unsafe fn sheet<'a>(
    options: u16,
    now: *const u16,
    now_len: usize,
    goal: *const u16,
    goal_len: usize,
    lengths: *const u16,
    lengths_len: usize,
) -> Sheet<'a> {
    let has_lengths = options & LENGTHS != 0;
    Sheet {
        initial: list(now, now_len),
        goal: list(goal, goal_len),
        lengths: has_lengths.then(|| list(lengths, lengths_len)),
    }
}

/// A sheet without lengths.
///
/// # Safety
/// Each pointer is to as many numbers as the length after it says.
unsafe fn bare<'a>(
    now: *const u16,
    now_len: usize,
    goal: *const u16,
    goal_len: usize,
) -> Sheet<'a> {
    sheet(0, now, now_len, goal, goal_len, std::ptr::null(), 0)
}

/// # Safety
/// Each pointer is to as many numbers as the length after it says.
#[no_mangle]
pub unsafe extern "C" fn plain_check(
    now: *const u16,
    now_len: usize,
    goal: *const u16,
    goal_len: usize,
) -> CheckAnswer {
    crate::check(bare(now, now_len, goal, goal_len))
}

/// # Safety
/// Each pointer is to as many numbers as the length after it says.
#[no_mangle]
pub unsafe extern "C" fn plain_check_with(
    options: u16,
    now: *const u16,
    now_len: usize,
    goal: *const u16,
    goal_len: usize,
    lengths: *const u16,
    lengths_len: usize,
) -> CheckAnswer {
    crate::check(sheet(
        options,
        now,
        now_len,
        goal,
        goal_len,
        lengths,
        lengths_len,
    ))
}

/// # Safety
/// Each pointer is to as many numbers as the length after it says, and nothing else uses the space.
#[no_mangle]
pub unsafe extern "C" fn plain_plan(
    method: u16,
    now: *const u16,
    now_len: usize,
    goal: *const u16,
    goal_len: usize,
    out: *mut u16,
    out_len: usize,
) -> PlanAnswer {
    let sheet = bare(now, now_len, goal, goal_len);
    crate::plan(method, sheet, space(out, out_len))
}

/// # Safety
/// Each pointer is to as many numbers as the length after it says, and nothing else uses the space.
#[no_mangle]
pub unsafe extern "C" fn plain_plan_panel(
    method: u16,
    now: *const u16,
    now_len: usize,
    goal: *const u16,
    goal_len: usize,
    out: *mut u16,
    out_len: usize,
) -> PlanAnswer {
    let sheet = bare(now, now_len, goal, goal_len);
    crate::plan_panel(method, sheet, space(out, out_len))
}

/// # Safety
/// Each pointer is to as many numbers as the length after it says, and nothing else uses the space.
#[no_mangle]
pub unsafe extern "C" fn plain_plan_with(
    options: u16,
    method: u16,
    now: *const u16,
    now_len: usize,
    goal: *const u16,
    goal_len: usize,
    lengths: *const u16,
    lengths_len: usize,
    out: *mut u16,
    out_len: usize,
) -> PlanAnswer {
    let sheet = sheet(options, now, now_len, goal, goal_len, lengths, lengths_len);
    let plan = if options & PANEL == 0 {
        crate::plan
    } else {
        crate::plan_panel
    };
    plan(method, sheet, space(out, out_len))
}

/// # Safety
/// Each pointer is to as many numbers as the length after it says, and nothing else uses the space.
#[no_mangle]
pub unsafe extern "C" fn plain_deadlock(
    now: *const u16,
    now_len: usize,
    goal: *const u16,
    goal_len: usize,
    out: *mut u16,
    out_len: usize,
) -> DeadlockAnswer {
    let sheet = bare(now, now_len, goal, goal_len);
    crate::deadlock(sheet, space(out, out_len))
}

/// # Safety
/// Each pointer is to as many numbers as the length after it says, and nothing else uses the space.
#[no_mangle]
pub unsafe extern "C" fn plain_deadlock_with(
    options: u16,
    now: *const u16,
    now_len: usize,
    goal: *const u16,
    goal_len: usize,
    lengths: *const u16,
    lengths_len: usize,
    out: *mut u16,
    out_len: usize,
) -> DeadlockAnswer {
    let sheet = sheet(options, now, now_len, goal, goal_len, lengths, lengths_len);
    crate::deadlock(sheet, space(out, out_len))
}

/// # Safety
/// Each pointer is to as many numbers as the length after it says.
#[no_mangle]
pub unsafe extern "C" fn plain_replay(
    now: *const u16,
    now_len: usize,
    goal: *const u16,
    goal_len: usize,
    moves: *const u16,
    moves_len: usize,
) -> ReplayAnswer {
    let sheet = bare(now, now_len, goal, goal_len);
    crate::replay(sheet, list(moves, moves_len))
}

/// # Safety
/// Each pointer is to as many numbers as the length after it says.
#[no_mangle]
pub unsafe extern "C" fn plain_replay_with(
    options: u16,
    now: *const u16,
    now_len: usize,
    goal: *const u16,
    goal_len: usize,
    lengths: *const u16,
    lengths_len: usize,
    moves: *const u16,
    moves_len: usize,
) -> ReplayAnswer {
    let sheet = sheet(options, now, now_len, goal, goal_len, lengths, lengths_len);
    crate::replay(sheet, list(moves, moves_len))
}
