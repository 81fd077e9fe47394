//! Questions 2 to 9, 16 to 18 with lengths, 19 for the panel, and what is known of an accepted problem at the start.

use crate::Sheet;

/// The most blocks of a problem, and the most that the panel in the crane cabin takes.
pub const MOST: usize = 4000;
pub const MOST_PANEL: usize = 600;

/// A question answered "no": its number and its place.
#[derive(Debug)]
pub struct Refusal {
    pub number: u64,
    pub place: u64,
}

/// A refusal without a place.
pub fn refused(number: u64) -> Refusal {
    Refusal { number, place: 0 }
}

/// An accepted problem. A load is the block that rests on a block, 0 where it is clear; the table's is 0.
pub struct Problem {
    pub n: usize,
    pub support: Vec<u16>,
    pub load: Vec<u16>,
    pub goal: Vec<u16>,
    pub goal_load: Vec<u16>,
}

impl Problem {
    /// Puts questions 2 to 9, and 16 to 18 with lengths; directly after 2 it puts 19, for more than `taken`.
    pub fn read(sheet: Sheet, taken: usize) -> Result<Self, Refusal> {
        let Sheet {
            initial,
            goal,
            lengths,
        } = sheet;
        let n = initial.len();
        if n > MOST {
            return Err(refused(2));
        }
        if n > taken {
            return Err(refused(19));
        }
        if goal.len() != n {
            return Err(refused(3));
        }
        let load = loads(initial, 4)?;
        let goal_load = loads(goal, 7)?;
        if let Some(lengths) = lengths {
            if lengths.len() != n {
                return Err(refused(16));
            }
            fits(initial, lengths, 17)?;
            fits(goal, lengths, 18)?;
        }
        Ok(Problem {
            n,
            support: with_table(initial),
            load,
            goal: with_table(goal),
            goal_load,
        })
    }

    /// The blocks, lowest first.
    pub fn blocks(&self) -> std::ops::RangeInclusive<u16> {
        1..=self.n as u16
    }

    /// Which blocks are in position; the table is.
    pub fn positions(&self) -> Vec<bool> {
        let mut placed = vec![false; self.n + 1];
        placed[0] = true;
        for block in self.blocks() {
            let mut at = usize::from(block);
            if self.support[at] != 0 || self.goal[at] != 0 {
                continue;
            }
            placed[at] = true;
            while self.load[at] != 0 && self.load[at] == self.goal_load[at] {
                at = usize::from(self.load[at]);
                placed[at] = true;
            }
        }
        placed
    }
}

/// A state with an entry 0 for the table.
fn with_table(state: &[u16]) -> Vec<u16> {
    let mut list = Vec::with_capacity(state.len() + 1);
    list.push(0);
    list.extend_from_slice(state);
    list
}

/// The loads of a state, or the first "no" to its three questions, of which `question` is the first.
fn loads(state: &[u16], question: u64) -> Result<Vec<u16>, Refusal> {
    let n = state.len();
    if state.iter().any_fold(|&support| usize::from(support) > n) {
        let bad = state.iter().position(|&support| usize::from(support) > n);
        return Err(at_entry(question, bad));
    }
    let mut load = vec![0; n + 1];
    for (i, &support) in state.iter().enumerate() {
        let support = usize::from(support);
        if support != 0 {
            if load[support] != 0 {
                return Err(at_entry(question + 1, Some(i)));
            }
            load[support] = (i + 1) as u16;
        }
    }
    let mut reached = 0;
    for block in (0..n).filter(|&i| state[i] == 0).map(|i| i + 1) {
        reached += 1;
        let mut above = load[block];
        while above != 0 {
            reached += 1;
            above = load[usize::from(above)];
        }
    }
    if reached < n {
        return Err(at_entry(question + 2, afloat(state, &load)));
    }
    Ok(load)
}

/// Whether a block may not rest on another, or on the table, by their lengths.
#[inline]
pub fn overhangs(lengths: &[u16], block: usize, support: usize) -> bool {
    support != 0 && lengths[block - 1] > lengths[support - 1]
}

/// The question of overhangs in a state.
fn fits(state: &[u16], lengths: &[u16], question: u64) -> Result<(), Refusal> {
    let mut supports = state.iter().zip(1..);
    match supports.position(|(&support, block)| overhangs(lengths, block, support.into())) {
        None => Ok(()),
        entry => Err(at_entry(question, entry)),
    }
}

/// The first entry whose block does not come down to the table.
fn afloat(state: &[u16], load: &[u16]) -> Option<usize> {
    let mut grounded = vec![false; state.len() + 1];
    for block in (0..state.len()).filter(|&i| state[i] == 0).map(|i| i + 1) {
        let mut at = block;
        while at != 0 {
            grounded[at] = true;
            at = usize::from(load[at]);
        }
    }
    grounded[1..].iter().position(|&down| !down)
}

/// The refusal at an entry, whose block is one more.
fn at_entry(number: u64, entry: Option<usize>) -> Refusal {
    Refusal {
        number,
        place: entry.map_or(0, |i| i as u64 + 1),
    }
}

/// `any` without an early end, which the compiler turns into vector code.
trait AnyFold: Iterator {
    fn any_fold(self, test: impl Fn(Self::Item) -> bool) -> bool;
}

impl<I: Iterator> AnyFold for I {
    fn any_fold(self, test: impl Fn(Self::Item) -> bool) -> bool {
        self.fold(false, |found, item| found | test(item))
    }
}
