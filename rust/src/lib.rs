//! Safe functions over libtopjeska.a, in the words of its header. An arrangement is a list that says of each
//! slab what it rests on: slabs are numbered from 1, and 0 is the ground. A sheet is two, `now` and `goal`, and may
//! have lengths: [`Sheet`] takes what a sheet has by name, the functions without it take the two. Planning has two
//! entries: `plan`, the yard office's, takes at most [`ffi::MOST_SLABS`] slabs, and `plan_panel`, that of the panel in
//! the crane cabin, [`ffi::MOST_PANEL`].

use std::fmt;

pub mod ffi;

/// A question answered "no": its number, and its place or 0.
#[derive(Clone, Copy, Debug, PartialEq, Eq)]
pub struct Refusal {
    pub number: u64,
    pub place: u64,
}

impl fmt::Display for Refusal {
    fn fmt(&self, f: &mut fmt::Formatter<'_>) -> fmt::Result {
        write!(f, "refused by question {}", self.number)?;
        if self.place != 0 {
            write!(f, " at {}", self.place)?;
        }
        Ok(())
    }
}

impl std::error::Error for Refusal {}

/// The three methods of planning.
#[derive(Clone, Copy, Debug, PartialEq, Eq)]
#[repr(u16)]
pub enum Method {
    Us = ffi::METHOD_US,
    Gn1 = ffi::METHOD_GN1,
    Gn2 = ffi::METHOD_GN2,
}

/// A slab and its destination.
pub type Lift = [u16; 2];

/// A slab of the deadlock; the slab through which the next one is in its way; and the nearest slab beneath that slab of
/// the deadlock in its goal pile that is in position once all constructive lifts are made and the yard stalls, 0 for the
/// ground.
pub type DeadlockRow = [u16; ffi::DEADLOCK_WIDTH];

/// The lifts from now to the goal, and how many slabs are misplaced at the start.
#[derive(Clone, Debug, PartialEq, Eq)]
pub struct Plan {
    pub lifts: Vec<Lift>,
    /// The count of slabs that are misplaced at the start. No list that arrives has fewer lifts than that. It is
    /// the fewest lifts that could do exactly when nothing is deadlocked at the start.
    pub misplaced: u64,
}

/// What a replay says; the bad lift is counted from 1.
#[derive(Clone, Copy, Debug, PartialEq, Eq)]
pub enum Verdict {
    Arrives,
    /// The slab is not in 1 to n or the destination is above n.
    Unknown {
        lift: u64,
    },
    /// The slab is not clear.
    Covered {
        lift: u64,
    },
    /// The slab already rests there.
    Idle {
        lift: u64,
    },
    /// The destination is the slab itself or a slab that is not clear.
    Taken {
        lift: u64,
    },
    /// All lifts are legal and the end differs from the goal: the lowest slab whose support differs.
    Elsewhere {
        slab: u64,
    },
    /// The slab is too long for its destination.
    TooLong {
        lift: u64,
    },
}

/// Why a replay gives no verdict.
#[derive(Clone, Copy, Debug, PartialEq, Eq)]
pub enum ReplayError {
    Refused(Refusal),
    /// The library answered a verdict that has no name here.
    NoVerdict(u64),
}

impl fmt::Display for ReplayError {
    fn fmt(&self, f: &mut fmt::Formatter<'_>) -> fmt::Result {
        match self {
            ReplayError::Refused(refusal) => refusal.fmt(f),
            ReplayError::NoVerdict(number) => write!(f, "{number} is no verdict"),
        }
    }
}

impl std::error::Error for ReplayError {
    fn source(&self) -> Option<&(dyn std::error::Error + 'static)> {
        match self {
            ReplayError::Refused(refusal) => Some(refusal),
            ReplayError::NoVerdict(_) => None,
        }
    }
}

impl From<Refusal> for ReplayError {
    fn from(refusal: Refusal) -> Self {
        ReplayError::Refused(refusal)
    }
}

impl TryFrom<ffi::ReplayAnswer> for Verdict {
    type Error = ReplayError;

    fn try_from(answer: ffi::ReplayAnswer) -> Result<Self, ReplayError> {
        accepted(answer.refusal, answer.place)?;
        let lift = answer.place;
        match answer.verdict {
            ffi::VERDICT_ARRIVES => Ok(Verdict::Arrives),
            ffi::VERDICT_UNKNOWN => Ok(Verdict::Unknown { lift }),
            ffi::VERDICT_COVERED => Ok(Verdict::Covered { lift }),
            ffi::VERDICT_IDLE => Ok(Verdict::Idle { lift }),
            ffi::VERDICT_TAKEN => Ok(Verdict::Taken { lift }),
            ffi::VERDICT_ELSEWHERE => Ok(Verdict::Elsewhere { slab: answer.place }),
            ffi::VERDICT_TOO_LONG => Ok(Verdict::TooLong { lift }),
            other => Err(ReplayError::NoVerdict(other)),
        }
    }
}

/// A list in lent space.
#[derive(Clone, Copy, Debug, PartialEq, Eq)]
pub struct Planned<'s> {
    /// The lifts, at the front of the space.
    pub lifts: &'s [Lift],
    /// As in [`Plan`].
    pub misplaced: u64,
}

/// A sheet, its parts by their names; what is not named it does not have.
///
/// With lengths, in cm, a slab must not rest on a shorter one, and a lift onto a shorter one is not legal. A sheet that
/// is accepted with lengths has the same lists with them and without, and what is promised of a list compares it with
/// lists that are legal with lengths.
///
/// ```
/// use topjeska::{ffi, Method, Refusal, Sheet};
///
/// // Slab 1, 250 cm long, goes from slab 2 onto slab 3.
/// let (now, goal, lengths) = ([2, 0, 0], [3, 0, 0], [250, 300, 250]);
/// let sheet = Sheet::new(&now, &goal).lengths(&lengths);
/// let mut space = [[0; 2]; ffi::plan_space(3) / 2];
/// assert_eq!(sheet.plan(Method::Gn1, &mut space)?.lifts, [[1, 3]]);
///
/// // A slab 3 of 200 cm is too short for it.
/// let refused = Sheet::new(&now, &goal).lengths(&[250, 300, 200]).check();
/// let (number, place) = (ffi::REFUSAL_GOAL_OVERHANG, 1);
/// assert_eq!(refused, Err(Refusal { number, place }));
/// # Ok::<(), Refusal>(())
/// ```
#[derive(Clone, Copy, Debug, PartialEq, Eq)]
pub struct Sheet<'a> {
    now: &'a [u16],
    goal: &'a [u16],
    lengths: Option<&'a [u16]>,
}

impl<'a> Sheet<'a> {
    /// A sheet of two arrangements.
    pub const fn new(now: &'a [u16], goal: &'a [u16]) -> Self {
        Sheet {
            now,
            goal,
            lengths: None,
        }
    }

    /// The same with the length of each slab.
    pub const fn lengths(self, lengths: &'a [u16]) -> Self {
        Sheet {
            lengths: Some(lengths),
            ..self
        }
    }

    /// The bits that say what it has, and its lengths or an empty list.
    fn options(&self) -> (u16, &'a [u16]) {
        match self.lengths {
            Some(lengths) => (ffi::LENGTHS, lengths),
            None => (0, &[]),
        }
    }

    /// Puts questions 2 to 9, and with lengths 16, 17 and 18.
    pub fn check(&self) -> Result<(), Refusal> {
        let (options, lengths) = self.options();
        // SAFETY: each pointer is a slice's own, with its length.
        let answer = unsafe {
            ffi::topjeska_check_with(
                options,
                self.now.as_ptr(),
                self.now.len(),
                self.goal.as_ptr(),
                self.goal.len(),
                lengths.as_ptr(),
                lengths.len(),
            )
        };
        accepted(answer.refusal, answer.place)
    }

    /// Writes the lifts of a method to the front of the space, which needs `ffi::plan_space(n) / 2` lifts for n slabs.
    pub fn plan<'s>(&self, method: Method, space: &'s mut [Lift]) -> Result<Planned<'s>, Refusal> {
        self.plan_by(0, method, space)
    }

    /// The same by the panel's entry, which refuses more than [`ffi::MOST_PANEL`] slabs by [`ffi::REFUSAL_PANEL`]. On
    /// so many or fewer both entries give equal answers and leave equal space.
    ///
    /// ```
    /// use topjeska::{ffi, Method, Refusal, Sheet};
    ///
    /// let (most, over) = ([0; ffi::MOST_PANEL], [0; ffi::MOST_PANEL + 1]);
    /// let mut space = vec![[0; 2]; ffi::plan_space(ffi::MOST_PANEL + 1) / 2];
    /// assert_eq!(Sheet::new(&most, &most).plan_panel(Method::Gn1, &mut space)?.lifts, [[0; 2]; 0]);
    /// let refused = Sheet::new(&over, &over).plan_panel(Method::Gn1, &mut space);
    /// let (number, place) = (ffi::REFUSAL_PANEL, 0);
    /// assert_eq!(refused, Err(Refusal { number, place }));
    /// # Ok::<(), Refusal>(())
    /// ```
    pub fn plan_panel<'s>(
        &self,
        method: Method,
        space: &'s mut [Lift],
    ) -> Result<Planned<'s>, Refusal> {
        self.plan_by(ffi::PANEL, method, space)
    }

    /// Planning by an entry: the panel's by its bit of the options, the yard office's by 0.
    fn plan_by<'s>(
        &self,
        entry: u16,
        method: Method,
        space: &'s mut [Lift],
    ) -> Result<Planned<'s>, Refusal> {
        let (options, lengths) = self.options();
        let numbers = space.as_flattened_mut();
        // SAFETY: each pointer is a slice's own, with its length; nothing else uses the space.
        let answer = unsafe {
            ffi::topjeska_plan_with(
                options | entry,
                method as u16,
                self.now.as_ptr(),
                self.now.len(),
                self.goal.as_ptr(),
                self.goal.len(),
                lengths.as_ptr(),
                lengths.len(),
                numbers.as_mut_ptr(),
                numbers.len(),
            )
        };
        accepted(answer.refusal, answer.place)?;
        Ok(Planned {
            lifts: &space[..answer.count as usize],
            misplaced: answer.misplaced,
        })
    }

    /// Writes one deadlock, a row for each of its slabs, to the front of the space; nothing where there is none. The
    /// space needs n rows for n slabs.
    ///
    /// ```
    /// use topjeska::{ffi, Refusal, Sheet};
    ///
    /// // Slab 1 is above slab 2 now and in the goal, and of that goal pile no slab is in position.
    /// let (now, goal) = ([2, 3, 0, 5, 0], [5, 0, 0, 3, 2]);
    /// let mut space = [[0; ffi::DEADLOCK_WIDTH]; 5];
    /// assert_eq!(Sheet::new(&now, &goal).deadlock(&mut space)?, [[1, 2, 0]]);
    /// # Ok::<(), Refusal>(())
    /// ```
    pub fn deadlock<'s>(&self, space: &'s mut [DeadlockRow]) -> Result<&'s [DeadlockRow], Refusal> {
        let (options, lengths) = self.options();
        let numbers = space.as_flattened_mut();
        // SAFETY: each pointer is a slice's own, with its length; nothing else uses the space.
        let answer = unsafe {
            ffi::topjeska_deadlock_with(
                options,
                self.now.as_ptr(),
                self.now.len(),
                self.goal.as_ptr(),
                self.goal.len(),
                lengths.as_ptr(),
                lengths.len(),
                numbers.as_mut_ptr(),
                numbers.len(),
            )
        };
        accepted(answer.refusal, answer.place)?;
        Ok(&space[..answer.count as usize])
    }

    /// Follows a list of lifts.
    pub fn replay(&self, lifts: &[Lift]) -> Result<Verdict, ReplayError> {
        let (options, lengths) = self.options();
        let numbers = lifts.as_flattened();
        // SAFETY: each pointer is a slice's own, with its length.
        let answer = unsafe {
            ffi::topjeska_replay_with(
                options,
                self.now.as_ptr(),
                self.now.len(),
                self.goal.as_ptr(),
                self.goal.len(),
                lengths.as_ptr(),
                lengths.len(),
                numbers.as_ptr(),
                numbers.len(),
            )
        };
        answer.try_into()
    }
}

/// Puts questions 2 to 9 to two lists.
pub fn check(now: &[u16], goal: &[u16]) -> Result<(), Refusal> {
    Sheet::new(now, goal).check()
}

/// The lifts of a method.
pub fn plan(method: Method, now: &[u16], goal: &[u16]) -> Result<Plan, Refusal> {
    plan_by(0, method, now, goal)
}

/// The same by the panel's entry, as [`Sheet::plan_panel`].
pub fn plan_panel(method: Method, now: &[u16], goal: &[u16]) -> Result<Plan, Refusal> {
    plan_by(ffi::PANEL, method, now, goal)
}

/// The lifts of a method by an entry, as [`Sheet::plan_by`].
fn plan_by(entry: u16, method: Method, now: &[u16], goal: &[u16]) -> Result<Plan, Refusal> {
    let mut lifts = vec![[0; 2]; ffi::plan_space(slabs(now)) / 2];
    let made = Sheet::new(now, goal).plan_by(entry, method, &mut lifts)?;
    let (count, misplaced) = (made.lifts.len(), made.misplaced);
    lifts.truncate(count);
    Ok(Plan { lifts, misplaced })
}

/// One deadlock, a row for each of its slabs; empty where there is none.
pub fn deadlock(now: &[u16], goal: &[u16]) -> Result<Vec<DeadlockRow>, Refusal> {
    let mut rows = vec![[0; ffi::DEADLOCK_WIDTH]; slabs(now)];
    let count = Sheet::new(now, goal).deadlock(&mut rows)?.len();
    rows.truncate(count);
    Ok(rows)
}

/// Follows a list of lifts.
pub fn replay(now: &[u16], goal: &[u16], lifts: &[Lift]) -> Result<Verdict, ReplayError> {
    Sheet::new(now, goal).replay(lifts)
}

/// Writes the arrangement of n slabs that has the number r to the front of a list. Each number below the count of
/// arrangements has its own. A refusal keeps the list.
///
/// ```
/// use topjeska::{training, Refusal};
///
/// // Three slabs have 13 arrangements; this is the last.
/// let mut out = [9; 4];
/// training(3, 12, &mut out)?;
/// assert_eq!(out, [3, 1, 0, 9]);
/// # Ok::<(), Refusal>(())
/// ```
pub fn training(n: usize, r: u64, out: &mut [u16]) -> Result<(), Refusal> {
    // SAFETY: the pointer is a slice's own, with its length.
    let answer = unsafe { ffi::topjeska_training(n, r, out.as_mut_ptr(), out.len()) };
    accepted(answer.refusal, answer.place)
}

/// What training sheets are drawn by. A seed draws the same sheets on every machine; one that is not 0 never becomes 0.
/// It keeps no secret and is not for statistics.
///
/// Now and goal of a sheet are two draws in a row:
///
/// ```
/// use topjeska::{check, Generator, Refusal};
///
/// let mut generator = Generator::new(7);
/// let (mut now, mut goal) = ([0; 5], [0; 5]);
/// generator.draw(5, &mut now)?;
/// generator.draw(5, &mut goal)?;
/// assert_eq!(now, [3, 0, 0, 5, 2]);
/// assert_eq!(goal, [2, 0, 0, 1, 0]);
/// assert_eq!(check(&now, &goal), Ok(()));
/// # Ok::<(), Refusal>(())
/// ```
#[derive(Clone, Debug, PartialEq, Eq)]
pub struct Generator(ffi::Generator);

impl Generator {
    /// A generator with a seed; with 0 every draw is refused.
    pub const fn new(seed: u64) -> Self {
        Generator(ffi::Generator { seed })
    }

    /// The seed: another generator with it draws what this one would.
    pub const fn seed(&self) -> u64 {
        self.0.seed
    }

    /// Moves on, for no slab too, and writes an arrangement of n slabs to the front of a list. A refusal keeps the seed
    /// and the list.
    pub fn draw(&mut self, n: usize, out: &mut [u16]) -> Result<(), Refusal> {
        let generator = &mut self.0;
        // SAFETY: the generator is this one's own, and the other pointer is a slice's own, with its length.
        let answer =
            unsafe { ffi::topjeska_training_draw(generator, n, out.as_mut_ptr(), out.len()) };
        accepted(answer.refusal, answer.place)
    }
}

/// The slabs that space is made for: none beyond the most, where the library refuses.
fn slabs(now: &[u16]) -> usize {
    now.len().min(ffi::MOST_SLABS)
}

/// An answer's first two fields as a result.
fn accepted(number: u64, place: u64) -> Result<(), Refusal> {
    if number == 0 {
        Ok(())
    } else {
        Err(Refusal { number, place })
    }
}

#[cfg(test)]
mod tests {
    use super::*;
    use std::error::Error;

    const METHODS: [Method; 3] = [Method::Us, Method::Gn1, Method::Gn2];

    /// A refusal with its place.
    fn refusal(number: u64, place: u64) -> Refusal {
        Refusal { number, place }
    }

    /// All four functions answer two lists by one refusal.
    fn all_refuse(now: &[u16], goal: &[u16], refusal: Refusal) {
        assert_eq!(check(now, goal), Err(refusal));
        for method in METHODS {
            assert_eq!(plan(method, now, goal), Err(refusal));
        }
        assert_eq!(deadlock(now, goal), Err(refusal));
        let refused = ReplayError::Refused(refusal);
        assert_eq!(replay(now, goal, &[[1, 0]]), Err(refused));
    }

    /// The result of an answer with the place 7.
    fn told(refusal: u64, verdict: u64) -> Result<Verdict, ReplayError> {
        Verdict::try_from(ffi::ReplayAnswer {
            refusal,
            verdict,
            place: 7,
        })
    }

    #[test]
    fn a_verdict_is_told_by_its_number() {
        assert_eq!(told(0, 0), Ok(Verdict::Arrives));
        assert_eq!(told(0, 1), Ok(Verdict::Unknown { lift: 7 }));
        assert_eq!(told(0, 2), Ok(Verdict::Covered { lift: 7 }));
        assert_eq!(told(0, 3), Ok(Verdict::Idle { lift: 7 }));
        assert_eq!(told(0, 4), Ok(Verdict::Taken { lift: 7 }));
        assert_eq!(told(0, 5), Ok(Verdict::Elsewhere { slab: 7 }));
        assert_eq!(told(0, 6), Ok(Verdict::TooLong { lift: 7 }));
    }

    #[test]
    fn another_number_is_an_error() {
        for number in (7..=ffi::NO_VERDICT + 1).chain([1 << 32, u64::MAX]) {
            assert_eq!(told(0, number), Err(ReplayError::NoVerdict(number)));
        }
    }

    #[test]
    fn a_refusal_is_an_error_whatever_its_verdict() {
        for verdict in (0..=7).chain([ffi::NO_VERDICT]) {
            let refused = ReplayError::Refused(refusal(11, 7));
            assert_eq!(told(11, verdict), Err(refused));
        }
    }

    #[test]
    fn errors_say_what_they_are() {
        let text = |answer: Result<Verdict, ReplayError>| answer.unwrap_err().to_string();
        assert_eq!(text(told(4, 0)), "refused by question 4 at 7");
        assert_eq!(text(told(0, 65535)), "65535 is no verdict");
        assert_eq!(refusal(7, 3).to_string(), "refused by question 7 at 3");
        assert_eq!(refusal(10, 0).to_string(), "refused by question 10");
    }

    #[test]
    fn the_source_of_a_refused_replay_is_its_refusal() {
        let refused = ReplayError::from(refusal(4, 3));
        let source = refused.source().and_then(|source| source.downcast_ref());
        assert_eq!(source, Some(&refusal(4, 3)));
        assert!(ReplayError::NoVerdict(7).source().is_none());
        assert!(refusal(4, 3).source().is_none());
    }

    #[test]
    fn a_bad_now_is_told_from_a_bad_goal() {
        // Document 01: "Now 2 1 5: number 4, place 3"; the same list as the goal is number 7.
        all_refuse(&[2, 1, 5], &[0, 0, 0], refusal(ffi::REFUSAL_NOW_ENTRY, 3));
        all_refuse(&[0, 0, 0], &[2, 1, 5], refusal(ffi::REFUSAL_GOAL_ENTRY, 3));
    }

    #[test]
    fn sheets_of_document_01_are_answered() {
        // S6 one way and the other, and S4.
        let (now, goal) = (&[2, 3, 0], &[2, 0, 0]);
        let there = vec![[1, 0], [2, 0], [1, 2]];
        let back = vec![[1, 0], [2, 3], [1, 2]];
        for (now, goal, lifts) in [(now, goal, there), (goal, now, back)] {
            assert_eq!(check(now, goal), Ok(()));
            assert_eq!(replay(now, goal, &lifts), Ok(Verdict::Arrives));
            assert_eq!(replay(goal, now, &lifts), Ok(Verdict::Idle { lift: 2 }));
            let elsewhere = Verdict::Elsewhere { slab: 1 };
            assert_eq!(replay(now, goal, &lifts[..1]), Ok(elsewhere));
            assert_eq!(
                plan(Method::Gn1, now, goal),
                Ok(Plan {
                    lifts,
                    misplaced: 2
                })
            );
        }
        let (now, goal) = (&[2, 0, 4, 0], &[4, 0, 2, 0]);
        assert_eq!(deadlock(now, goal), Ok(vec![[1, 4, 4], [3, 2, 2]]));
        assert_eq!(deadlock(goal, now), Ok(vec![[1, 2, 2], [3, 4, 4]]));
    }

    #[test]
    fn a_row_says_where_the_good_part_of_the_pile_ends() {
        // S5 "reads 1 2 0": beneath slab 1 in its goal pile no slab is in position.
        let row = |now: [u16; 5], goal: [u16; 5]| deadlock(&now, &goal);
        assert_eq!(row([2, 3, 0, 5, 0], [5, 0, 0, 3, 2]), Ok(vec![[1, 2, 0]]));
        // Beneath slab 1 come 2, 4 and 3. Of these 3 alone is in position at the start, and 4 too when the yard stalls:
        // its lift onto 3 is constructive.
        assert_eq!(row([2, 5, 0, 0, 0], [2, 4, 0, 3, 0]), Ok(vec![[1, 2, 4]]));
    }

    #[test]
    fn the_deadlock_test_needs_a_row_for_each_slab() {
        let (now, goal) = ([2, 0, 4, 0], [4, 0, 2, 0]);
        let held = [9; ffi::deadlock_room(4)];
        let mut space = held;
        let mut test = |len| {
            let room = space.as_mut_ptr();
            // SAFETY: each pointer is an array's own, with a length that it has.
            let answer =
                unsafe { ffi::topjeska_deadlock(now.as_ptr(), 4, goal.as_ptr(), 4, room, len) };
            (answer.refusal, answer.count, space)
        };
        for len in [0, 8, 11] {
            assert_eq!(test(len), (ffi::REFUSAL_SPACE, 0, held));
        }
        let written = [1, 4, 4, 3, 2, 2, 9, 9, 9, 9, 9, 9];
        assert_eq!(test(12), (0, 2, written));
    }

    #[test]
    fn each_method_has_its_own_list() {
        // A sheet of six slabs that method 3 lifts once more than method 2, and 1 once more than 3.
        let (now, goal) = (&[3, 0, 4, 0, 2, 1], &[2, 0, 1, 0, 4, 5]);
        let counts = METHODS.map(|method| plan(method, now, goal).unwrap().lifts.len());
        assert_eq!(counts, [8, 6, 7]);
    }

    #[test]
    fn a_sheet_beyond_the_most_slabs_is_refused() {
        let (most, over) = (vec![0; ffi::MOST_SLABS], vec![0; ffi::MOST_SLABS + 1]);
        assert_eq!(check(&most, &most), Ok(()));
        for method in METHODS {
            assert!(plan(method, &most, &most).is_ok());
        }
        assert_eq!(deadlock(&most, &most), Ok(vec![]));
        all_refuse(&over, &over, refusal(ffi::REFUSAL_TOO_MANY, 0));
        all_refuse(&over, &most, refusal(ffi::REFUSAL_TOO_MANY, 0));
        all_refuse(&most, &over, refusal(ffi::REFUSAL_UNEQUAL, 0));
    }

    #[test]
    fn the_library_gives_a_refused_replay_no_verdict() {
        let (now, goal) = ([2, 1, 5], [0, 0, 0]);
        // SAFETY: each pointer is an array's own, with its length.
        let answer =
            unsafe { ffi::topjeska_replay(now.as_ptr(), 3, goal.as_ptr(), 3, goal.as_ptr(), 0) };
        let expected = ffi::ReplayAnswer {
            refusal: 4,
            verdict: ffi::NO_VERDICT,
            place: 3,
        };
        assert_eq!(answer, expected);
    }

    /// All of a sheet with lengths answer by one refusal, and keep the space.
    fn sheet_refuses(sheet: Sheet, refusal: Refusal) {
        let (mut space, mut rows) = ([[9; 2]; 8], [[9; 3]; 4]);
        assert_eq!(sheet.check(), Err(refusal));
        for method in METHODS {
            assert_eq!(sheet.plan(method, &mut space), Err(refusal));
        }
        assert_eq!(sheet.deadlock(&mut rows), Err(refusal));
        assert_eq!(sheet.replay(&[[1, 0]]), Err(ReplayError::Refused(refusal)));
        assert_eq!((space, rows), ([[9; 2]; 8], [[9; 3]; 4]));
    }

    #[test]
    fn lengths_are_asked_after_the_arrangements() {
        let (count, now, goal) = (
            ffi::REFUSAL_LENGTHS_COUNT,
            ffi::REFUSAL_NOW_OVERHANG,
            ffi::REFUSAL_GOAL_OVERHANG,
        );
        let sheet = Sheet::new(&[2, 0], &[0, 1]);
        sheet_refuses(sheet.lengths(&[]), refusal(count, 0));
        sheet_refuses(sheet.lengths(&[250, 250, 250]), refusal(count, 0));
        sheet_refuses(sheet.lengths(&[300, 250]), refusal(now, 1));
        sheet_refuses(sheet.lengths(&[250, 300]), refusal(goal, 2));
        assert_eq!(sheet.lengths(&[250, 250]).check(), Ok(()));
        let bad = Sheet::new(&[2, 1, 5], &[0, 0, 0]).lengths(&[]);
        sheet_refuses(bad, refusal(ffi::REFUSAL_NOW_ENTRY, 3));
        // No lengths of no slabs are lengths too.
        assert_eq!(Sheet::new(&[], &[]).lengths(&[]).check(), Ok(()));
        sheet_refuses(Sheet::new(&[], &[]).lengths(&[250]), refusal(count, 0));
    }

    #[test]
    fn lengths_change_no_list() {
        // S4, its feet longer than what is lifted.
        let (now, goal) = (&[2, 0, 4, 0], &[4, 0, 2, 0]);
        let (three, rows) = ([[1, 0], [3, 2], [1, 4]], [[1, 4, 4], [3, 2, 2]]);
        let without = Sheet::new(now, goal);
        for sheet in [without, without.lengths(&[250, 300, 250, 300])] {
            let mut space = [[9; 2]; 8];
            let made = sheet.plan(Method::Gn1, &mut space);
            let (lifts, misplaced) = (three.as_slice(), 2);
            assert_eq!(made, Ok(Planned { lifts, misplaced }));
            assert_eq!(space[3..], [[9; 2]; 5]);
            assert_eq!(sheet.replay(&three), Ok(Verdict::Arrives));
            let mut space = [[9; 3]; 4];
            assert_eq!(sheet.deadlock(&mut space), Ok(rows.as_slice()));
            assert_eq!(space[2..], [[9; 3]; 2]);
            let short = refusal(ffi::REFUSAL_SPACE, 0);
            assert_eq!(sheet.plan(Method::Gn1, &mut [[9; 2]; 7]), Err(short));
            assert_eq!(sheet.deadlock(&mut [[9; 3]; 3]), Err(short));
        }
    }

    #[test]
    fn a_lift_onto_a_shorter_slab_is_too_long() {
        let ground = [0; 3];
        let without = Sheet::new(&ground, &ground);
        let with = without.lengths(&[250, 300, 250]);
        // Slab 2 onto 1; then onto 1 under 3, which is taken first.
        let verdicts = [with, without].map(|sheet| sheet.replay(&[[2, 1]]));
        let (long, elsewhere) = (Verdict::TooLong { lift: 1 }, Verdict::Elsewhere { slab: 2 });
        assert_eq!(verdicts, [Ok(long), Ok(elsewhere)]);
        let taken = Verdict::Taken { lift: 2 };
        assert_eq!(with.replay(&[[3, 1], [2, 1]]), Ok(taken));
        assert_eq!(with.replay(&[[1, 3], [1, 2], [1, 0]]), Ok(Verdict::Arrives));
    }

    /// An answer of planning, its lifts and misplaced slabs counted, and the space that it leaves.
    type Left = (Result<(usize, u64), Refusal>, Vec<Lift>);

    /// A sheet by the yard office's entry and by the panel's.
    fn by_both(sheet: Sheet, method: Method) -> [Left; 2] {
        [Sheet::plan, Sheet::plan_panel].map(|entry| {
            let mut space = vec![[9; 2]; ffi::plan_space(sheet.now.len()) / 2];
            let made = entry(&sheet, method, &mut space);
            (made.map(|made| (made.lifts.len(), made.misplaced)), space)
        })
    }

    #[test]
    fn the_panel_takes_600_slabs() {
        // Document 02: "On 600 slabs or fewer the two give equal answers. Checks: 19 for more than 600 by the panel's
        // entry, directly after 2."
        for n in [600, 601, 4000, 4001] {
            // A pile that shall stand the other way up, and a list in which slab 300 has an entry too high.
            let now: Vec<u16> = (0..n).collect();
            let goal: Vec<u16> = (2..=n).chain([0]).collect();
            let (mut bad, lengths) = (goal.clone(), vec![250; now.len()]);
            bad[299] = n + 1;
            let good = Sheet::new(&now, &goal);
            let sheets = [
                (good, 0, 0),
                (good.lengths(&lengths), 0, 0),
                (good.lengths(&lengths[1..]), 16, 0),
                (Sheet::new(&now, &bad), 7, 300),
                (Sheet::new(&now, &bad).lengths(&lengths), 7, 300),
                (Sheet::new(&bad, &goal), 4, 300),
                (Sheet::new(&now, &goal[1..]), 3, 0),
            ];
            let refused = |number| (Err(refusal(number, 0)), vec![[9; 2]; 2 * now.len()]);
            for method in METHODS {
                // Each slab is lifted once, by method 1 all but the lowest and the highest twice.
                let twice = if method == Method::Us { n - 2 } else { 0 };
                for (sheet, number, place) in sheets {
                    let answer = accepted(number, place).map(|()| ((n + twice).into(), n.into()));
                    let [office, panel] = by_both(sheet, method);
                    if n > 4000 {
                        assert_eq!((office, panel), (refused(2), refused(2)));
                    } else {
                        assert_eq!(office.0, answer);
                        assert_eq!(panel, if n > 600 { refused(19) } else { office });
                    }
                }
                let made = plan_panel(method, &now, &goal);
                assert_eq!(made.is_ok(), n <= 600);
                assert_eq!(made == plan(method, &now, &goal), n <= 600 || n > 4000);
            }
        }
    }

    #[test]
    fn the_method_is_asked_before_the_slabs_by_the_panel() {
        let list = [0; 4001];
        for (n, number) in [(600, 0), (601, 19), (4000, 19), (4001, 2)] {
            for method in 0..=4 {
                let expected = ffi::PlanAnswer {
                    refusal: if (1..=3).contains(&method) { number } else { 1 },
                    place: 0,
                    count: 0,
                    misplaced: 0,
                };
                let mut space = vec![9; ffi::plan_space(n)];
                let (lent, len, room) = (list.as_ptr(), space.len(), space.as_mut_ptr());
                // SAFETY: each pointer is a list's own, with a length that it has.
                let answer =
                    unsafe { ffi::topjeska_plan_panel(method, lent, n, lent, n, room, len) };
                assert_eq!(answer, expected);
                assert_eq!(space, vec![9; ffi::plan_space(n)]);
            }
        }
    }

    #[test]
    fn each_number_below_the_count_has_its_own_arrangement() {
        let every: Vec<_> = (0..13)
            .map(|r| {
                let mut out = [0; 3];
                assert_eq!(training(3, r, &mut out), Ok(()));
                assert_eq!(check(&out, &[0; 3]), Ok(()));
                out
            })
            .collect();
        // All on the ground at 0, each on the highest other top at 12, and none twice.
        assert_eq!((every[0], every[12]), ([0; 3], [3, 1, 0]));
        for (r, one) in every.iter().enumerate() {
            assert!(!every[..r].contains(one));
        }
    }

    #[test]
    fn a_draw_moves_the_generator_on() {
        // From 1 the shifts give 8193, 8257, 1082269761. By 73, the count for four slabs, that leaves 12.
        let mut generator = Generator::new(1);
        let (mut out, mut numbered) = ([9; 5], [9; 5]);
        assert_eq!(generator.draw(4, &mut out), Ok(()));
        assert_eq!((generator.seed(), out), (1082269761, [0, 0, 4, 2, 9]));
        assert_eq!(training(4, 12, &mut numbered), Ok(()));
        assert_eq!(out, numbered);
        let mut other = Generator::new(1);
        assert_eq!(other.draw(0, &mut []), Ok(()));
        assert_eq!(other, generator);
    }

    #[test]
    fn refused_training_keeps_what_is_lent() {
        const LAST: u64 = 1_290_434_218_669_920;
        let (most, mut out) = (ffi::MOST_TRAINED, [9; ffi::MOST_TRAINED + 1]);
        let [size, number, space] = [
            ffi::REFUSAL_TRAINING_SIZE,
            ffi::REFUSAL_TRAINING_NUMBER,
            ffi::REFUSAL_SPACE,
        ]
        .map(|number| Err(refusal(number, 0)));
        // The first "no" of 14, 15 and 10, in that order.
        assert_eq!(training(most + 1, u64::MAX, &mut []), size);
        assert_eq!(training(usize::MAX, 0, &mut out), size);
        assert_eq!(training(most, LAST + 1, &mut out[..most - 1]), number);
        assert_eq!(training(0, 1, &mut []), number);
        assert_eq!(training(most, LAST, &mut out[..most - 1]), space);
        for seed in [0, 7] {
            let mut generator = Generator::new(seed);
            let third = if seed == 0 { number } else { space };
            assert_eq!(generator.draw(most + 1, &mut []), size);
            assert_eq!(generator.draw(usize::MAX, &mut out), size);
            assert_eq!(generator.draw(most, &mut out[..most - 1]), third);
            assert_eq!(generator.seed(), seed);
        }
        assert_eq!(out, [9; ffi::MOST_TRAINED + 1]);
        assert_eq!(training(most, LAST, &mut out[..most]), Ok(()));
        assert_eq!((out[0], out[most - 1], out[most]), (16, 0, 9));
    }
}
