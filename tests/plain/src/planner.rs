//! The three methods and the deadlock test.
//!
//! A clear misplaced block stays clear and misplaced until it makes its constructive move, since a
//! move ends on the table or on a block in position. So a block enters the set of those with a
//! constructive move once, when the last of three things happens: its load leaves, its goal support
//! comes into position, or the load of that leaves.

use crate::blockset::BlockSet;
use crate::problem::{refused, Problem, Refusal, MOST};
use crate::towers::Towers;
use crate::Sheet;

/// A state under way to its goal.
pub struct Yard {
    pub support: Vec<u16>,
    pub load: Vec<u16>,
    pub goal: Vec<u16>,
    pub goal_load: Vec<u16>,
    pub placed: Vec<bool>,
    /// The blocks with a constructive move.
    ready: BlockSet,
}

impl Yard {
    fn of(problem: Problem) -> Self {
        let placed = problem.positions();
        Yard {
            support: problem.support,
            load: problem.load,
            goal: problem.goal,
            goal_load: problem.goal_load,
            placed,
            ready: BlockSet::new(),
        }
    }

    pub fn blocks(&self) -> std::ops::RangeInclusive<u16> {
        1..=(self.support.len() - 1) as u16
    }

    /// Whether a block is misplaced and clear.
    fn is_free(&self, block: u16) -> bool {
        let at = usize::from(block);
        !self.placed[at] && self.load[at] == 0
    }

    fn is_on_table(&self, block: u16) -> bool {
        self.support[usize::from(block)] == 0
    }

    /// Whether a block's goal support is the table or a clear block in position.
    fn is_open(&self, block: u16) -> bool {
        let target = usize::from(self.goal[usize::from(block)]);
        self.placed[target] && self.load[target] == 0
    }

    /// Finds the blocks with a constructive move.
    fn find_ready(&mut self) {
        for block in self.blocks() {
            if self.is_free(block) && self.is_open(block) {
                self.ready.insert(block);
            }
        }
    }

    /// Makes a ready block's constructive move, and gives what it rested on.
    fn build(&mut self, block: u16) -> u16 {
        let at = usize::from(block);
        let target = self.goal[at];
        let from = std::mem::replace(&mut self.support[at], target);
        self.placed[at] = true;
        if target != 0 {
            self.load[usize::from(target)] = block;
        }
        self.offer(self.goal_load[at]);
        from
    }

    /// Puts a block down, and gives what it rested on.
    fn put_down(&mut self, block: u16) -> u16 {
        std::mem::take(&mut self.support[usize::from(block)])
    }

    /// A misplaced block left its support; says whether a misplaced block is clear by that.
    fn uncover(&mut self, from: u16) -> bool {
        if from == 0 {
            return false;
        }
        let at = usize::from(from);
        self.load[at] = 0;
        if self.placed[at] {
            self.offer(self.goal_load[at]);
            return false;
        }
        if self.is_open(from) {
            self.ready.insert(from);
        }
        true
    }

    /// A misplaced block's goal support is clear and in position; 0 where no block wants it.
    fn offer(&mut self, block: u16) {
        if block != 0 && self.load[usize::from(block)] == 0 {
            self.ready.insert(block);
        }
    }
}

/// Moves written to the front of the lent space.
struct Plan<'a> {
    out: &'a mut [u16],
    count: usize,
}

impl Plan<'_> {
    fn push(&mut self, block: u16, to: u16) {
        self.out[2 * self.count] = block;
        self.out[2 * self.count + 1] = to;
        self.count += 1;
    }
}

/// The count of moves of a method's plan, and the count of blocks that are misplaced at the start; of a sheet of at most
/// `taken` blocks.
pub fn plan(
    method: u16,
    sheet: Sheet,
    taken: usize,
    out: &mut [u16],
) -> Result<(u64, u64), Refusal> {
    let solve = match method {
        1 => us,
        2 => gn1,
        3 => gn2,
        _ => return Err(refused(1)),
    };
    let problem = Problem::read(sheet, taken)?;
    if out.len() < 4 * problem.n {
        return Err(refused(10));
    }
    let yard = Yard::of(problem);
    let misplaced = yard.placed.iter().filter(|placed| !**placed).count();
    let mut plan = Plan { out, count: 0 };
    solve(yard, &mut plan);
    Ok((plan.count as u64, misplaced as u64))
}

/// Method 1: misplaced blocks to the table, then constructive moves.
fn us(mut yard: Yard, plan: &mut Plan) {
    let mut loose = BlockSet::new();
    for block in yard.blocks() {
        if yard.is_free(block) && !yard.is_on_table(block) {
            loose.insert(block);
        }
    }
    while let Some(block) = loose.pop() {
        let from = yard.put_down(block);
        yard.load[usize::from(from)] = 0;
        yard.placed[usize::from(block)] = yard.goal[usize::from(block)] == 0;
        if !yard.placed[usize::from(from)] && !yard.is_on_table(from) {
            loose.insert(from);
        }
        plan.push(block, 0);
    }
    // Every misplaced block is clear and on the table now, and leaves nothing behind that waits.
    yard.find_ready();
    while let Some(block) = yard.ready.pop() {
        yard.build(block);
        plan.push(block, yard.goal[usize::from(block)]);
    }
}

/// Method 2: constructive moves; at a stall the lowest misplaced clear block off the table goes to it.
fn gn1(mut yard: Yard, plan: &mut Plan) {
    let mut loose = BlockSet::new();
    for block in yard.blocks() {
        if yard.is_free(block) && !yard.is_on_table(block) {
            loose.insert(block);
        }
    }
    yard.find_ready();
    loop {
        let from = if let Some(block) = yard.ready.pop() {
            loose.remove(block);
            plan.push(block, yard.goal[usize::from(block)]);
            yard.build(block)
        } else if let Some(block) = loose.pop() {
            plan.push(block, 0);
            yard.put_down(block)
        } else {
            return;
        };
        if yard.uncover(from) && !yard.is_on_table(from) {
            loose.insert(from);
        }
    }
}

/// Method 3: constructive moves; at a stall the lowest block on the loop goes to the table.
fn gn2(mut yard: Yard, plan: &mut Plan) {
    let mut towers = Towers::of(&yard);
    let mut free = BlockSet::new();
    for block in yard.blocks() {
        if yard.is_free(block) {
            free.insert(block);
        }
    }
    yard.find_ready();
    loop {
        let from = if let Some(block) = yard.ready.pop() {
            free.remove(block);
            let target = yard.goal[usize::from(block)];
            plan.push(block, target);
            let from = yard.build(block);
            towers.moved(block, from, target);
            towers.placed(block);
            from
        } else if let Some(start) = free.lowest() {
            let Some(&block) = towers.walk(&yard, start).iter().min() else {
                return;
            };
            plan.push(block, 0);
            let from = yard.put_down(block);
            towers.moved(block, from, 0);
            from
        } else {
            return;
        };
        if yard.uncover(from) {
            free.insert(from);
        }
    }
}

/// What is written of a block on the loop: itself, what is in its way, and what its goal tower has in position.
const ROW: usize = 3;

/// The count of blocks on the loop where the constructive moves stall, a row written for each.
pub fn deadlock(sheet: Sheet, out: &mut [u16]) -> Result<u64, Refusal> {
    let problem = Problem::read(sheet, MOST)?;
    if out.len() < ROW * problem.n {
        return Err(refused(10));
    }
    let mut yard = Yard::of(problem);
    yard.find_ready();
    while let Some(block) = yard.ready.pop() {
        let from = yard.build(block);
        yard.uncover(from);
    }
    let Some(start) = yard.blocks().find(|&block| yard.is_free(block)) else {
        return Ok(0);
    };
    let mut towers = Towers::of(&yard);
    let mut blocks = towers.walk(&yard, start).to_vec();
    let lowest = blocks.iter().enumerate().min_by_key(|&(_, block)| block);
    let lowest = lowest.map_or(0, |(i, _)| i);
    blocks.rotate_left(lowest);
    for (row, &block) in out.chunks_exact_mut(ROW).zip(&blocks) {
        let way = towers.in_the_way(&yard, block);
        row.copy_from_slice(&[block, way, towers.built(block)]);
    }
    Ok(blocks.len() as u64)
}
