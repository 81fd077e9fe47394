//! `include/topjeska.h` in Rust: its constants, answers and functions, in its order and its words.
//!
//! An arrangement of n slabs is a list of n numbers: entry i - 1 says what slab i rests on, 0 for the
//! ground. A list is lent as a pointer and a length. The pointer is to as many numbers as the length
//! says, and may be NULL where the length is 0. A generator is lent as a pointer that is not NULL.
//! What is written overlaps nothing else that is lent.
//!
//! A sheet may have lengths: a list of n numbers, entry i - 1 the length of slab i in cm. Then a slab
//! must not rest on a shorter one, and a lift onto a shorter one is not legal; slabs of equal lengths
//! may rest on each other, and the ground takes any.
//!
//! In every answer `refusal` is 0 where the call was answered, else one of `REFUSAL_...`; `place` is
//! then its place, the counts are 0, and what is lent holds what it held. A refused replay gives no
//! verdict: `NO_VERDICT` stands in its place.

/// The version of the header, and of this crate.
pub const VERSION: &str = env!("CARGO_PKG_VERSION");

/// The most slabs of a sheet: the limit of `topjeska_plan`, the yard office's entry to planning, and of
/// all other functions on sheets but the panel's entry.
pub const MOST_SLABS: usize = 4000;

/// The most slabs of a sheet at the panel: the limit of `topjeska_plan_panel`, the panel's entry to
/// planning.
pub const MOST_PANEL: usize = 600;

/// The most slabs of a training sheet.
pub const MOST_TRAINED: usize = 16;

/// The numbers of lent space that planning needs for n slabs, by both entries alike: at most 16,000 by
/// the yard office's, and 2,400 by the panel's.
pub const fn plan_space(n: usize) -> usize {
    4 * n
}

/// The numbers that the deadlock test writes for a slab: row i, counted from 0, begins at
/// `DEADLOCK_WIDTH` * i.
pub const DEADLOCK_WIDTH: usize = 3;

/// The numbers of lent space that the deadlock test needs for n slabs.
pub const fn deadlock_room(n: usize) -> usize {
    DEADLOCK_WIDTH * n
}

/// The bytes of stack that every call stays below. No call allocates memory or keeps a pointer: the
/// working lists lie on the stack, and are as long for a few slabs as for 4,000, by the panel's entry
/// too.
pub const STACK_BYTES: usize = 163840;

/// The sheet has lengths. Without this bit the lengths are not looked at.
pub const LENGTHS: u16 = 1;

/// Planning is by the panel's entry. Planning alone looks at this bit: check, deadlock test and replay
/// do not ask 19.
pub const PANEL: u16 = 2;

/// US: puts down the misplaced clear slabs off the ground, then makes constructive lifts.
pub const METHOD_US: u16 = 1;

/// GN1: makes constructive lifts, and at a stall puts down the lowest misplaced clear slab off the
/// ground.
pub const METHOD_GN1: u16 = 2;

/// GN2: as GN1, but at a stall puts down the lowest slab on the loop.
pub const METHOD_GN2: u16 = 3;

/// Is the method 1, 2 or 3? (planning)
pub const REFUSAL_METHOD: u64 = 1;

/// Has the now list at most 4,000 entries?
pub const REFUSAL_TOO_MANY: u64 = 2;

/// Has the goal list as many?
pub const REFUSAL_UNEQUAL: u64 = 3;

/// Is every now entry at most n? Place: the lowest slab with a bad entry.
pub const REFUSAL_NOW_ENTRY: u64 = 4;

/// Does each slab carry at most one slab now? Place: the lowest slab that rests where a
/// lower-numbered slab rests, the ground excepted.
pub const REFUSAL_NOW_SHARED: u64 = 5;

/// Does every slab come down to the ground now? Place: the lowest slab that does not.
pub const REFUSAL_NOW_FLOATING: u64 = 6;

/// Is every goal entry at most n? Place: the lowest slab with a bad entry.
pub const REFUSAL_GOAL_ENTRY: u64 = 7;

/// Does each slab carry at most one slab in the goal? Place: the lowest slab that rests where a
/// lower-numbered slab rests, the ground excepted.
pub const REFUSAL_GOAL_SHARED: u64 = 8;

/// Does every slab come down to the ground in the goal? Place: the lowest slab that does not.
pub const REFUSAL_GOAL_FLOATING: u64 = 9;

/// Is the lent space large enough? (planning, deadlock test, training)
pub const REFUSAL_SPACE: u64 = 10;

/// Has the lift list an even number of entries? (replay)
pub const REFUSAL_ODD: u64 = 11;

/// Are all bytes of the record there, with its own mark, and nothing after the last record? (program)
/// Place: the records before it, or 2 * n + 1 for a tail, 3 * n + 1 with lengths.
pub const REFUSAL_RECORD: u64 = 12;

/// Was there a slab to put down when no constructive lift existed? (planning)
pub const REFUSAL_STALL: u64 = 13;

/// Are there at most 16 slabs? (training)
pub const REFUSAL_TRAINING_SIZE: u64 = 14;

/// Is the number below the count of arrangements, or the seed not 0? (training)
pub const REFUSAL_TRAINING_NUMBER: u64 = 15;

/// Are there as many lengths as slabs? (with lengths)
pub const REFUSAL_LENGTHS_COUNT: u64 = 16;

/// Is each slab at most as long as the slab it rests on now? (with lengths) Place: the lowest slab
/// that overhangs.
pub const REFUSAL_NOW_OVERHANG: u64 = 17;

/// Is each slab at most as long as the slab it rests on in the goal? (with lengths) Place: the
/// lowest slab that overhangs.
pub const REFUSAL_GOAL_OVERHANG: u64 = 18;

/// Has the now list at most 600 entries? (panel)
pub const REFUSAL_PANEL: u64 = 19;

/// Arrives.
pub const VERDICT_ARRIVES: u64 = 0;

/// The slab is not in 1 to n or the destination is above n. Place: the lift, counted from 1.
pub const VERDICT_UNKNOWN: u64 = 1;

/// The slab is not clear. Place: the lift, counted from 1.
pub const VERDICT_COVERED: u64 = 2;

/// It already rests there. Place: the lift, counted from 1.
pub const VERDICT_IDLE: u64 = 3;

/// The destination is the slab itself or a slab that is not clear. Place: the lift, counted from 1.
pub const VERDICT_TAKEN: u64 = 4;

/// All lifts are legal and the end differs from the goal. Place: the lowest slab whose support
/// differs.
pub const VERDICT_ELSEWHERE: u64 = 5;

/// It is too long for its destination. Place: the lift, counted from 1.
pub const VERDICT_TOO_LONG: u64 = 6;

/// The verdict of a refused replay: a number that is none.
pub const NO_VERDICT: u64 = 65535;

/// Whether lists are a sheet.
#[repr(C)]
#[derive(Clone, Copy, Debug, PartialEq, Eq)]
pub struct CheckAnswer {
    pub refusal: u64,
    pub place: u64,
}

/// The count of lifts written, and `misplaced`, the count of slabs that are misplaced at the start.
/// No list that arrives has fewer lifts than that. It is the fewest lifts that could do exactly when
/// nothing is deadlocked at the start: with a deadlock every list that arrives has more (theorem
/// `head_count`).
#[repr(C)]
#[derive(Clone, Copy, Debug, PartialEq, Eq)]
pub struct PlanAnswer {
    pub refusal: u64,
    pub place: u64,
    pub count: u64,
    pub misplaced: u64,
}

/// The count of deadlocked slabs written; 0 where there is no deadlock.
#[repr(C)]
#[derive(Clone, Copy, Debug, PartialEq, Eq)]
pub struct DeadlockAnswer {
    pub refusal: u64,
    pub place: u64,
    pub count: u64,
}

/// The verdict, one of `VERDICT_...`, and the place of the refusal or of the verdict.
#[repr(C)]
#[derive(Clone, Copy, Debug, PartialEq, Eq)]
pub struct ReplayAnswer {
    pub refusal: u64,
    pub verdict: u64,
    pub place: u64,
}

/// Whether an arrangement is written; the place is 0.
#[repr(C)]
#[derive(Clone, Copy, Debug, PartialEq, Eq)]
pub struct TrainingAnswer {
    pub refusal: u64,
    pub place: u64,
}

/// What training sheets are drawn by. A seed draws the same sheets on every machine; one that is not
/// 0 never becomes 0. It keeps no secret and is not for statistics.
#[repr(C)]
#[derive(Clone, Debug, PartialEq, Eq)]
pub struct Generator {
    pub seed: u64,
}

extern "C" {
    /// Puts questions 2 to 9 to two lists.
    pub fn topjeska_check(
        now: *const u16,
        now_len: usize,
        goal: *const u16,
        goal_len: usize,
    ) -> CheckAnswer;

    /// Writes the lifts of a method, one of `METHOD_...`, to the front of the space, as pairs: slab,
    /// destination. The space needs `plan_space` numbers; what lies behind the pairs keeps what it
    /// held. US writes as many lifts as slabs are misplaced, and one more for each of these that is
    /// off the ground both now and in the goal; for the same sheet GN1 and GN2 write no more than US
    /// (theorem `beside_us`). This is the yard office's entry, which takes at most `MOST_SLABS` slabs.
    pub fn topjeska_plan(
        method: u16,
        now: *const u16,
        now_len: usize,
        goal: *const u16,
        goal_len: usize,
        space: *mut u16,
        space_len: usize,
    ) -> PlanAnswer;

    /// As `topjeska_plan`, by the entry of the panel in the crane cabin, which takes at most
    /// `MOST_PANEL` slabs: `REFUSAL_PANEL` is asked directly after `REFUSAL_TOO_MANY`. On so many
    /// slabs or fewer both entries give equal answers and leave equal space (theorem `panel_same`).
    pub fn topjeska_plan_panel(
        method: u16,
        now: *const u16,
        now_len: usize,
        goal: *const u16,
        goal_len: usize,
        space: *mut u16,
        space_len: usize,
    ) -> PlanAnswer;

    /// Writes the deadlock that the constructive lifts come to, if any, to the front of the space, as
    /// rows of three: a slab of the deadlock; the slab through which the next one is in its way; and
    /// the nearest slab beneath that slab of the deadlock in its goal pile that is in position once
    /// all constructive lifts are made and the yard stalls, 0 for the ground. The space needs
    /// `deadlock_room` numbers; what lies behind the rows keeps what it held.
    pub fn topjeska_deadlock(
        now: *const u16,
        now_len: usize,
        goal: *const u16,
        goal_len: usize,
        space: *mut u16,
        space_len: usize,
    ) -> DeadlockAnswer;

    /// Follows a list of lifts, pairs of slab and destination, of any length.
    pub fn topjeska_replay(
        now: *const u16,
        now_len: usize,
        goal: *const u16,
        goal_len: usize,
        lifts: *const u16,
        lifts_len: usize,
    ) -> ReplayAnswer;

    /// Puts questions 2 to 9 to a sheet, and with lengths 16, 17 and 18.
    pub fn topjeska_check_with(
        options: u16,
        now: *const u16,
        now_len: usize,
        goal: *const u16,
        goal_len: usize,
        lengths: *const u16,
        lengths_len: usize,
    ) -> CheckAnswer;

    /// As `topjeska_plan`, and with `PANEL` as `topjeska_plan_panel`. A sheet that is accepted with
    /// lengths has the same list with them and without. With them all that is promised of a list
    /// compares it with lists that are legal with lengths, and it is legal with lengths itself.
    pub fn topjeska_plan_with(
        options: u16,
        method: u16,
        now: *const u16,
        now_len: usize,
        goal: *const u16,
        goal_len: usize,
        lengths: *const u16,
        lengths_len: usize,
        space: *mut u16,
        space_len: usize,
    ) -> PlanAnswer;

    /// As `topjeska_deadlock`. A sheet that is accepted with lengths has the same rows with them and
    /// without.
    pub fn topjeska_deadlock_with(
        options: u16,
        now: *const u16,
        now_len: usize,
        goal: *const u16,
        goal_len: usize,
        lengths: *const u16,
        lengths_len: usize,
        space: *mut u16,
        space_len: usize,
    ) -> DeadlockAnswer;

    /// As `topjeska_replay`. With lengths every lift is tested for `VERDICT_TOO_LONG`, after
    /// `VERDICT_TAKEN`.
    pub fn topjeska_replay_with(
        options: u16,
        now: *const u16,
        now_len: usize,
        goal: *const u16,
        goal_len: usize,
        lengths: *const u16,
        lengths_len: usize,
        lifts: *const u16,
        lifts_len: usize,
    ) -> ReplayAnswer;

    /// Writes the arrangement of n slabs that has the number r to the front of the list; what lies
    /// behind its n numbers keeps what it held. The numbers below the count of arrangements (1 for no
    /// slab, 13 for three, 1,290,434,218,669,921 for 16) give each arrangement that a sheet may have,
    /// each once.
    pub fn topjeska_training(n: usize, r: u64, out: *mut u16, out_len: usize) -> TrainingAnswer;

    /// Moves the generator on, for no slab too, and writes the arrangement whose number is the
    /// remainder of the new seed by the count of arrangements. A refusal keeps the seed and the list.
    /// Now and goal of a sheet are two draws in a row.
    pub fn topjeska_training_draw(
        generator: *mut Generator,
        n: usize,
        out: *mut u16,
        out_len: usize,
    ) -> TrainingAnswer;
}
