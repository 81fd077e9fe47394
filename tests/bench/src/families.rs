//! Problems that are hard in one way each, of any number of blocks.

/// Two states of the same blocks.
pub struct Problem {
    pub initial: Vec<u16>,
    pub goal: Vec<u16>,
}

impl Problem {
    /// Lengths from 200 to 1,199 cm, cut so that no block overhangs in either state.
    pub fn lengths(&self) -> Vec<u16> {
        let mut random = Random(0xd1b5_4a32_d192_ed03);
        let mut lengths: Vec<u16> = Vec::new();
        lengths.resize_with(self.initial.len(), || 200 + random.below(1000) as u16);
        loop {
            let before = lengths.clone();
            for state in [&self.initial, &self.goal] {
                for (i, &support) in state.iter().enumerate() {
                    if support != 0 {
                        lengths[i] = lengths[i].min(lengths[usize::from(support) - 1]);
                    }
                }
            }
            if lengths == before {
                return lengths;
            }
        }
    }
}

/// A family's name and its problem of about n blocks.
pub type Family = (&'static str, fn(usize) -> Problem);

pub const FAMILIES: [Family; 15] = [
    ("random-tall", |n| random(n, (n as f64).sqrt())),
    ("random-low", |n| random(n, n as f64 / 2.0)),
    ("reversed", reversed),
    ("reversed-mixed", |n| mixed(reversed(n))),
    ("one-tower", one_tower),
    ("s4", |n| copies(n, &[2, 0, 4, 0], &[4, 0, 2, 0])),
    ("s5", |n| copies(n, &[2, 3, 0, 5, 0], &[5, 0, 0, 3, 2])),
    ("ring", |n| ring(n, 2)),
    ("ring-mixed", |n| mixed(ring(n, 2))),
    ("ring-tall", |n| ring(n, 10)),
    WAITING[0],
    ("entered-ring", |n| ring_from_outside(n, true)),
    ("long-loop", |n| ring_from_outside(n, false)),
    ("shifted", shifted),
    ("turned", turned),
];

/// Those in which slabs wait one for the other: a walk of all of them, at each stall the same but for its end. In the
/// second only until a slab with a number lower than the start's is put down, and becomes the start.
pub const WAITING: [Family; 4] = [
    ("waiting", |n| waiting(n, 2)),
    ("waiting-mixed", |n| mixed(waiting(n, 2))),
    ("waiting-first", |n| mixed_behind_the_first(waiting(n, 2))),
    ("waiting-tall", |n| waiting(n, 10.min(n / 4))),
];

/// Marsaglia's xorshift generator.
struct Random(u64);

impl Random {
    fn below(&mut self, bound: usize) -> usize {
        self.0 ^= self.0 << 13;
        self.0 ^= self.0 >> 7;
        self.0 ^= self.0 << 17;
        (self.0 % bound as u64) as usize
    }

    /// The numbers 1 to n in a random order.
    fn order(&mut self, n: usize) -> Vec<u16> {
        let mut order: Vec<u16> = (1..=n as u16).collect();
        for i in (1..n).rev() {
            order.swap(i, self.below(i + 1));
        }
        order
    }
}

/// The state that has these towers, each from the bottom up.
fn state(n: usize, towers: &[Vec<u16>]) -> Vec<u16> {
    let mut state = vec![0; n];
    for tower in towers {
        for pair in tower.windows(2) {
            state[usize::from(pair[1]) - 1] = pair[0];
        }
    }
    state
}

/// Two random states with some count of towers each.
fn random(n: usize, towers: f64) -> Problem {
    let mut random = Random(0x9e37_79b9_7f4a_7c15 + n as u64);
    let mut one = || {
        let order = random.order(n);
        let mut state = vec![0; n];
        for pair in order.windows(2) {
            if random.below(n) as f64 >= towers {
                state[usize::from(pair[1]) - 1] = pair[0];
            }
        }
        state
    };
    Problem {
        initial: one(),
        goal: one(),
    }
}

/// The same problem with the blocks numbered at random.
fn mixed(problem: Problem) -> Problem {
    let mut names = vec![0];
    names.extend(Random(0x2545_f491_4f6c_dd1d).order(problem.initial.len()));
    renamed(problem, &names)
}

/// The same but for block 1, which keeps its number.
fn mixed_behind_the_first(problem: Problem) -> Problem {
    let mut names = vec![0, 1];
    let others = Random(0x2545_f491_4f6c_dd1d).order(problem.initial.len() - 1);
    names.extend(others.iter().map(|name| name + 1));
    renamed(problem, &names)
}

/// The same problem with other numbers.
fn renamed(problem: Problem, names: &[u16]) -> Problem {
    let n = problem.initial.len();
    let rename = |state: &[u16]| {
        let mut renamed = vec![0; n];
        for (i, &support) in state.iter().enumerate() {
            renamed[usize::from(names[i + 1]) - 1] = names[usize::from(support)];
        }
        renamed
    };
    Problem {
        initial: rename(&problem.initial),
        goal: rename(&problem.goal),
    }
}

/// One tower that is to stand the other way up.
fn reversed(n: usize) -> Problem {
    let tower: Vec<u16> = (1..=n as u16).collect();
    let other = tower.iter().rev().copied().collect();
    Problem {
        initial: state(n, &[tower]),
        goal: state(n, &[other]),
    }
}

/// Many towers into one.
fn one_tower(n: usize) -> Problem {
    let initial = random(n, (n as f64).sqrt()).initial;
    let tower = Random(0xd134_2543_de82_ef95).order(n);
    Problem {
        initial,
        goal: state(n, &[tower]),
    }
}

/// A small problem repeated.
fn copies(n: usize, initial: &[u16], goal: &[u16]) -> Problem {
    let repeat = |small: &[u16]| {
        let copy = |first: usize| {
            let moved = move |&x: &u16| if x == 0 { 0 } else { x + first as u16 };
            small.iter().map(moved)
        };
        let firsts = (0..n / small.len()).map(|k| k * small.len());
        firsts.flat_map(copy).collect()
    };
    Problem {
        initial: repeat(initial),
        goal: repeat(goal),
    }
}

/// Towers in a ring: all but the bottom of each goes, the other way up, onto the next one's bottom.
fn ring(n: usize, height: usize) -> Problem {
    let count = n / height;
    let block = |tower: usize, level: usize| (level * count + tower % count + 1) as u16;
    let mut now = Vec::new();
    let mut goal = Vec::new();
    for tower in 0..count {
        now.push((0..height).map(|level| block(tower, level)).collect());
        let foot = std::iter::once(block(tower + 1, 0));
        goal.push(
            foot.chain((1..height).rev().map(|level| block(tower, level)))
                .collect(),
        );
    }
    Problem {
        initial: state(count * height, &now),
        goal: state(count * height, &goal),
    }
}

/// Half of the blocks stand in towers that wait: all but the bottom of each goes, the other way up, onto the next one's
/// bottom. The last goes onto that of a tower of the other half, whose top is always in its own way.
fn waiting(n: usize, height: usize) -> Problem {
    let count = n / 2 / height;
    let block = |tower: usize, level: usize| ((height - 1 - level) * count + tower + 1) as u16;
    let last: Vec<u16> = ((count * height + 1) as u16..=n as u16).collect();
    let mut now = Vec::new();
    let mut goal = Vec::new();
    for tower in 0..count {
        now.push((0..height).map(|level| block(tower, level)).collect());
        let foot = if tower + 1 < count {
            block(tower + 1, 0)
        } else {
            last[0]
        };
        let others = (1..height).rev().map(|level| block(tower, level));
        goal.push(std::iter::once(foot).chain(others).collect());
    }
    goal.push(last[1..].to_vec());
    now.push(last);
    Problem {
        initial: state(n, &now),
        goal: state(n, &goal),
    }
}

/// Made against the walk that method 3 keeps: a ring of towers, one of them of half the blocks, and one block outside
/// that waits for the ring. At each stall the top of the tall tower is the lowest block on the loop, and the walk is cut
/// there. Where the walk comes in by that tower, it stands second, and the next walk is of the whole ring: about n²/8
/// steps. Where it comes in behind that tower, it stands last, and nothing is walked again; but the lowest block of the
/// whole loop is looked for again, among about n²/8 blocks.
fn ring_from_outside(n: usize, by_the_tall_one: bool) -> Problem {
    let ring = n / 4;
    let tall = n - 2 * ring - 3;
    let start = 1;
    let tops: Vec<u16> = (2..tall as u16 + 2).collect();
    let foot = |tower: usize| (tall + 2 + tower) as u16;
    let waits = |tower: usize| (tall + ring + 3 + tower) as u16;
    let mut now = vec![vec![n as u16, start]];
    let mut tall = vec![foot(0)];
    tall.extend(tops.iter().rev());
    now.push(tall);
    let mut onto_tall = vec![foot(0), waits(ring - 1)];
    let mut onto_next = vec![foot(1)];
    onto_next.extend(tops);
    if by_the_tall_one {
        onto_tall.push(start);
    } else {
        onto_next.push(start);
    }
    let mut goal = vec![onto_tall, onto_next];
    for tower in 0..ring {
        now.push(vec![foot(tower + 1), waits(tower)]);
        if tower + 1 < ring {
            goal.push(vec![foot(tower + 2), waits(tower)]);
        }
    }
    Problem {
        initial: state(n, &now),
        goal: state(n, &goal),
    }
}

/// Ten towers; every block but the bottoms goes onto the tower beside its own, at its own level.
fn shifted(n: usize) -> Problem {
    let block = |tower: usize, level: usize| (level * 10 + tower % 10 + 1) as u16;
    let towers = |lean: usize| -> Vec<Vec<u16>> {
        let one = |t: usize| {
            (0..n / 10)
                .map(|level| block(t + level * lean, level))
                .collect()
        };
        (0..10).map(one).collect()
    };
    Problem {
        initial: state(n, &towers(0)),
        goal: state(n, &towers(1)),
    }
}

/// Towers of ten; each goes up by one, and its top becomes its bottom.
fn turned(n: usize) -> Problem {
    let order = Random(0x9fb2_1c65_1e98_df25).order(n);
    let now: Vec<Vec<u16>> = order.chunks(10).map(<[u16]>::to_vec).collect();
    let mut goal = now.clone();
    for tower in &mut goal {
        tower.rotate_right(1);
    }
    Problem {
        initial: state(n, &now),
        goal: state(n, &goal),
    }
}
