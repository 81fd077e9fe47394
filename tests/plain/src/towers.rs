//! Towers by their bottom blocks, and the loop of a stalled state.

use crate::planner::Yard;

/// The towers of a state and of the goal.
pub struct Towers {
    /// The bottom of a block's tower now.
    bottom: Vec<u16>,
    /// The top of the tower with this bottom now.
    top: Vec<u16>,
    /// The bottom of a block's tower in the goal.
    goal_bottom: Vec<u16>,
    /// The highest block in position of the goal tower with this bottom; 0 where there is none.
    highest: Vec<u16>,
    /// When a block was last visited, as a number of the visits of all walks.
    seen: Vec<u32>,
    visits: u32,
    path: Vec<u16>,
}

impl Towers {
    pub fn of(yard: &Yard) -> Self {
        let n = yard.support.len() - 1;
        let (bottom, top) = bottoms(&yard.support, &yard.load);
        let (goal_bottom, _) = bottoms(&yard.goal, &yard.goal_load);
        let mut highest = vec![0; n + 1];
        for block in yard.blocks() {
            let at = usize::from(block);
            let next = usize::from(yard.goal_load[at]);
            if yard.placed[at] && (next == 0 || !yard.placed[next]) {
                highest[usize::from(goal_bottom[at])] = block;
            }
        }
        Towers {
            bottom,
            top,
            goal_bottom,
            highest,
            seen: vec![0; n + 1],
            visits: 1,
            path: Vec::with_capacity(n),
        }
    }

    /// A block left one tower for another, or for the table.
    #[inline]
    pub fn moved(&mut self, block: u16, from: u16, to: u16) {
        let at = usize::from(block);
        let old = self.bottom[at];
        self.top[usize::from(old)] = from;
        let new = if to == 0 {
            block
        } else {
            self.bottom[usize::from(to)]
        };
        self.bottom[at] = new;
        self.top[usize::from(new)] = block;
    }

    /// A block came into position.
    #[inline]
    pub fn placed(&mut self, block: u16) {
        self.highest[usize::from(self.goal_bottom[usize::from(block)])] = block;
    }

    /// c of a misplaced block: the highest block in position of its goal tower, since all in position there are beneath
    /// it; 0 for the table.
    #[inline]
    pub fn built(&self, block: u16) -> u16 {
        self.highest[usize::from(self.goal_bottom[usize::from(block)])]
    }

    /// The block through which its successor is in a block's way: c where c is not clear, else d.
    #[inline]
    pub fn in_the_way(&self, yard: &Yard, block: u16) -> u16 {
        let c = self.built(block);
        if c == 0 {
            self.goal_bottom[usize::from(block)]
        } else if yard.load[usize::from(c)] == 0 {
            yard.goal_load[usize::from(c)]
        } else {
            c
        }
    }

    /// The loop that the successors of a misplaced clear block come to, from the block that returns first.
    pub fn walk(&mut self, yard: &Yard, start: u16) -> &[u16] {
        self.path.clear();
        let mut block = start;
        loop {
            let seen = &mut self.seen[usize::from(block)];
            if *seen >= self.visits {
                let first = (*seen - self.visits) as usize;
                self.visits += self.path.len() as u32;
                return &self.path[first..];
            }
            *seen = self.visits + self.path.len() as u32;
            self.path.push(block);
            let through = self.in_the_way(yard, block);
            block = self.top[usize::from(self.bottom[usize::from(through)])];
        }
    }
}

/// The bottom of each block's tower, and the top of each tower by its bottom.
fn bottoms(support: &[u16], load: &[u16]) -> (Vec<u16>, Vec<u16>) {
    let mut bottom = vec![0; support.len()];
    let mut top = vec![0; support.len()];
    for foot in (1..support.len()).filter(|&block| support[block] == 0) {
        let mut at = foot;
        bottom[at] = foot as u16;
        while load[at] != 0 {
            at = usize::from(load[at]);
            bottom[at] = foot as u16;
        }
        top[foot] = at as u16;
    }
    (bottom, top)
}
