//! Document 01 in plain Rust, with the lengths, the panel and the deadlock's rows of document 02, written for speed and
//! from the documents alone: the library is measured against it and compared with it.
//!
//! Blocks are numbered from 1 and 0 is the table. Every list inside has an entry 0 for the table.

#![deny(unsafe_code)]

mod blockset;
mod exported;
mod planner;
mod problem;
mod towers;
mod validator;

use problem::{Problem, Refusal, MOST, MOST_PANEL};

/// Two states, and the lengths of their blocks or none.
#[derive(Clone, Copy)]
pub struct Sheet<'a> {
    pub initial: &'a [u16],
    pub goal: &'a [u16],
    pub lengths: Option<&'a [u16]>,
}

/// Questions 2 to 9, and 16 to 18 with lengths.
#[repr(C)]
#[derive(Clone, Copy, Debug, Default, PartialEq, Eq)]
pub struct CheckAnswer {
    pub refusal: u64,
    pub place: u64,
}

/// A plan's count of moves, and the count of blocks that are misplaced at the start.
#[repr(C)]
#[derive(Clone, Copy, Debug, Default, PartialEq, Eq)]
pub struct PlanAnswer {
    pub refusal: u64,
    pub place: u64,
    pub count: u64,
    pub misplaced: u64,
}

/// The count of blocks on the loop; 0 where there is no deadlock.
#[repr(C)]
#[derive(Clone, Copy, Debug, Default, PartialEq, Eq)]
pub struct DeadlockAnswer {
    pub refusal: u64,
    pub place: u64,
    pub count: u64,
}

/// What a refused replay has in place of a verdict.
const NO_VERDICT: u64 = 65535;

/// The verdict of a replay; the place is the refusal's or the verdict's.
#[repr(C)]
#[derive(Clone, Copy, Debug, Default, PartialEq, Eq)]
pub struct ReplayAnswer {
    pub refusal: u64,
    pub verdict: u64,
    pub place: u64,
}

/// Puts questions 2 to 9 to a sheet, and 16 to 18 where it has lengths.
pub fn check(sheet: Sheet) -> CheckAnswer {
    match Problem::read(sheet, MOST) {
        Ok(_) => CheckAnswer::default(),
        Err(Refusal { number, place }) => CheckAnswer {
            refusal: number,
            place,
        },
    }
}

/// Writes the plan of a method to the front of `out`.
pub fn plan(method: u16, sheet: Sheet, out: &mut [u16]) -> PlanAnswer {
    plan_up_to(MOST, method, sheet, out)
}

/// The same from the panel in the crane cabin.
pub fn plan_panel(method: u16, sheet: Sheet, out: &mut [u16]) -> PlanAnswer {
    plan_up_to(MOST_PANEL, method, sheet, out)
}

/// Planning where so many blocks are taken.
fn plan_up_to(taken: usize, method: u16, sheet: Sheet, out: &mut [u16]) -> PlanAnswer {
    match planner::plan(method, sheet, taken, out) {
        Ok((count, misplaced)) => PlanAnswer {
            count,
            misplaced,
            ..PlanAnswer::default()
        },
        Err(Refusal { number, place }) => PlanAnswer {
            refusal: number,
            place,
            ..PlanAnswer::default()
        },
    }
}

/// Writes the blocks of a deadlock to the front of `out`, each with the block in its way and the highest in position of
/// its goal tower.
pub fn deadlock(sheet: Sheet, out: &mut [u16]) -> DeadlockAnswer {
    match planner::deadlock(sheet, out) {
        Ok(count) => DeadlockAnswer {
            count,
            ..DeadlockAnswer::default()
        },
        Err(Refusal { number, place }) => DeadlockAnswer {
            refusal: number,
            place,
            count: 0,
        },
    }
}

/// Follows a list of moves and says whether each is legal and the end is the goal.
pub fn replay(sheet: Sheet, moves: &[u16]) -> ReplayAnswer {
    match validator::replay(sheet, moves) {
        Ok((verdict, place)) => ReplayAnswer {
            refusal: 0,
            verdict,
            place,
        },
        Err(Refusal { number, place }) => ReplayAnswer {
            refusal: number,
            verdict: NO_VERDICT,
            place,
        },
    }
}
