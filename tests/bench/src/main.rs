//! Measures the library beside plain Rust, with lengths beside itself without, and by method 3 beside method 2: medians,
//! ratios and growth, held to the budget.

mod families;

use families::{Family, Problem, FAMILIES, WAITING};
use std::hint::black_box;
use std::process::ExitCode;
use std::time::{Duration, Instant};
use topjeska::ffi;

const SIZES: [usize; 5] = [10, 100, 1000, 2000, 4000];

/// The most that a call may take, as a multiple of plain Rust's time, at 4,000 slabs.
const RATIO: f64 = 1.3;

/// The most by which the time may grow from 2,000 to 4,000 slabs.
const GROWTH: f64 = 2.5;

/// Samples are at least so long, so that the clock does not matter.
const SAMPLE: Duration = Duration::from_micros(100);

/// The least and the most samples of a size, and how long one series may take once it has the least.
const SAMPLES: (usize, usize) = (15, 201);
const SERIES: Duration = Duration::from_millis(400);

/// A measurement that misses the budget is repeated so often at most, since other work on the machine can spoil one.
const TRIES: usize = 3;

#[derive(Clone, Copy, PartialEq, Eq)]
enum Operation {
    Check,
    Plan(u16),
    Deadlock,
    Replay,
}

use Operation::{Check, Deadlock, Plan, Replay};

/// The operations, and what is said where the budget does not bound the growth of one.
const OPERATIONS: [(&str, Operation, Option<&str>); 5] = [
    ("plan 1", Plan(ffi::METHOD_US), None),
    ("plan 2", Plan(ffi::METHOD_GN1), None),
    (
        "plan 3",
        Plan(ffi::METHOD_GN2),
        Some(
            "The growth of plan 3 is bound only where slabs wait, below. entered-ring and long-loop are made against it: \
             about n²/8 steps of its walk, or n²/8 slabs among which it looks for the lowest on the loop.",
        ),
    ),
    ("deadlock", Deadlock, None),
    (
        "replay",
        Replay,
        Some("The growth of replay has no budget: none was asked for."),
    ),
];

/// The families that are measured with lengths, the operations, and how much more time each may take with them: one
/// pass over the sheet, where a check is some.
const WITH_LENGTHS: [&str; 2] = ["random-tall", "s4"];
const LENGTH_OPERATIONS: [(&str, Operation, f64); 2] = [
    ("check", Check, 1.6),
    ("plan 2", Plan(ffi::METHOD_GN1), 1.2),
];

/// How many times method 2's time method 3 may take where slabs wait.
const METHODS: f64 = 3.0;

/// Who makes a call: the library, or plain Rust; with lengths or without.
#[derive(Clone, Copy, PartialEq, Eq)]
enum Side {
    Ours,
    Plain,
    OursWith,
    PlainWith,
}

use Side::{Ours, OursWith, Plain, PlainWith};

/// What one call is lent: the problem with its lengths, the space, and the list that is replayed.
struct Lent {
    problem: Problem,
    lengths: Vec<u16>,
    space: Vec<u16>,
    moves: Vec<u16>,
}

impl Lent {
    fn new(problem: Problem, operation: Operation) -> Self {
        let n = problem.initial.len();
        let length = if operation == Deadlock {
            ffi::deadlock_room(n)
        } else {
            ffi::plan_space(n)
        };
        let mut lent = Lent {
            problem,
            lengths: Vec::new(),
            space: vec![0; ffi::plan_space(n)],
            moves: Vec::new(),
        };
        let [_, _, count, _] = lent.call(Plan(ffi::METHOD_US), Plain);
        lent.moves = lent.space[..2 * count as usize].to_vec();
        lent.space = vec![u16::MAX; length];
        lent
    }

    /// The same with lengths.
    fn measured(mut self) -> Self {
        self.lengths = self.problem.lengths();
        self
    }

    /// One side's answer, as four numbers at most.
    fn call(&mut self, operation: Operation, side: Side) -> [u64; 4] {
        match side {
            Ours | OursWith => self.ours(operation, side == OursWith),
            Plain | PlainWith => self.plain(operation, side == PlainWith),
        }
    }

    /// Plain Rust's answer.
    fn plain(&mut self, operation: Operation, with: bool) -> [u64; 4] {
        let sheet = plain::Sheet {
            initial: &self.problem.initial,
            goal: &self.problem.goal,
            lengths: with.then_some(self.lengths.as_slice()),
        };
        match operation {
            Check => {
                let a = plain::check(sheet);
                [a.refusal, a.place, 0, 0]
            }
            Plan(method) => {
                let a = plain::plan(method, sheet, &mut self.space);
                [a.refusal, a.place, a.count, a.misplaced]
            }
            Deadlock => {
                let a = plain::deadlock(sheet, &mut self.space);
                [a.refusal, a.place, a.count, 0]
            }
            Replay => {
                let a = plain::replay(sheet, &self.moves);
                [a.refusal, a.verdict, a.place, 0]
            }
        }
    }

    /// The library's answer.
    fn ours(&mut self, operation: Operation, with: bool) -> [u64; 4] {
        let Problem { initial, goal } = &self.problem;
        let (now, now_len) = (initial.as_ptr(), initial.len());
        let (goal, goal_len) = (goal.as_ptr(), goal.len());
        let (long, long_len) = (self.lengths.as_ptr(), self.lengths.len());
        let (space, space_len) = (self.space.as_mut_ptr(), self.space.len());
        let (moves, moves_len) = (self.moves.as_ptr(), self.moves.len());
        // SAFETY: each pointer is a vector's own, with its length; nothing else uses the space.
        unsafe {
            match operation {
                Check => {
                    let a = if with {
                        ffi::topjeska_check_with(
                            ffi::LENGTHS,
                            now,
                            now_len,
                            goal,
                            goal_len,
                            long,
                            long_len,
                        )
                    } else {
                        ffi::topjeska_check(now, now_len, goal, goal_len)
                    };
                    [a.refusal, a.place, 0, 0]
                }
                Plan(method) => {
                    let a = if with {
                        ffi::topjeska_plan_with(
                            ffi::LENGTHS,
                            method,
                            now,
                            now_len,
                            goal,
                            goal_len,
                            long,
                            long_len,
                            space,
                            space_len,
                        )
                    } else {
                        ffi::topjeska_plan(method, now, now_len, goal, goal_len, space, space_len)
                    };
                    [a.refusal, a.place, a.count, a.misplaced]
                }
                Deadlock => {
                    let a = if with {
                        ffi::topjeska_deadlock_with(
                            ffi::LENGTHS,
                            now,
                            now_len,
                            goal,
                            goal_len,
                            long,
                            long_len,
                            space,
                            space_len,
                        )
                    } else {
                        ffi::topjeska_deadlock(now, now_len, goal, goal_len, space, space_len)
                    };
                    [a.refusal, a.place, a.count, 0]
                }
                Replay => {
                    let a = if with {
                        ffi::topjeska_replay_with(
                            ffi::LENGTHS,
                            now,
                            now_len,
                            goal,
                            goal_len,
                            long,
                            long_len,
                            moves,
                            moves_len,
                        )
                    } else {
                        ffi::topjeska_replay(now, now_len, goal, goal_len, moves, moves_len)
                    };
                    [a.refusal, a.verdict, a.place, 0]
                }
            }
        }
    }

    /// Whether both sides give the same answer, a problem's and no refusal, and leave the same space.
    fn agree(&mut self, calls: Calls) -> bool {
        let [one, other] = calls.map(|(operation, side)| {
            self.space.fill(u16::MAX);
            (self.call(operation, side), self.space.clone())
        });
        one == other && one.0[0] == 0
    }

    /// The time of one call, of some made in a row.
    fn time(&mut self, operation: Operation, side: Side, calls: u32) -> Duration {
        let start = Instant::now();
        for _ in 0..calls {
            black_box(self.call(operation, side));
        }
        start.elapsed() / calls
    }
}

/// Two calls that are measured beside each other.
type Calls = [(Operation, Side); 2];

/// The medians of two sides for each size.
type Medians = [[Duration; 2]; SIZES.len()];

fn median(samples: &mut [Duration]) -> Duration {
    samples.sort_unstable();
    samples[samples.len() / 2]
}

/// Measures all sizes in turn, both sides beside each other, whichever first.
fn measure(lent: &mut [Lent], calls: Calls, patience: u32) -> Medians {
    let counts: Vec<u32> = lent
        .iter_mut()
        .map(|one| {
            let [first, second] = calls.map(|(operation, side)| one.time(operation, side, 3));
            let once = first.min(second).max(Duration::from_nanos(100));
            (SAMPLE.as_nanos() / once.as_nanos()) as u32 + 1
        })
        .collect();
    let mut samples = vec![[Vec::new(), Vec::new()]; lent.len()];
    let start = Instant::now();
    for round in 0..SAMPLES.1 {
        if round >= SAMPLES.0 && start.elapsed() > SERIES * patience {
            break;
        }
        for ((one, taken), &count) in lent.iter_mut().zip(&mut samples).zip(&counts) {
            for which in [round % 2, 1 - round % 2] {
                let (operation, side) = calls[which];
                taken[which].push(one.time(operation, side, count));
            }
        }
    }
    let mut medians = Medians::default();
    for (row, taken) in medians.iter_mut().zip(&mut samples) {
        *row = [median(&mut taken[0]), median(&mut taken[1])];
    }
    medians
}

fn ratio(a: Duration, b: Duration) -> f64 {
    a.as_secs_f64() / b.as_secs_f64()
}

/// What stands above the tables.
fn preface() {
    println!(
        "Time of a call in µs, medians of two sides, and their ratio; growth is the first one's from \
         2,000 to 4,000 slabs."
    );
    println!("Budget: ratio at most {RATIO} at 4,000 slabs, growth at most {GROWTH}.");
    for why in OPERATIONS.iter().filter_map(|(_, _, why)| *why) {
        println!("{why}");
    }
}

/// A table's head: what stands in its columns, for each size three.
fn head(sides: [&str; 2]) {
    print!("\n{:<15}{:<16}", "", "");
    for n in SIZES {
        print!("{:>24}", format!("{n} slabs, µs"));
    }
    print!("\n{:<15}{:<16}", "family", "operation");
    for _ in SIZES {
        print!("{:>9}{:>9}{:>6}", sides[0], sides[1], "ratio");
    }
    println!("{:>8}{:>12}", "growth", "allowed");
}

/// A row of a table: its name, what is measured, the most that the ratio may be, and whether the growth is bound.
struct Row {
    name: String,
    calls: Calls,
    ratio: f64,
    growth_bound: bool,
}

impl Row {
    /// What a series misses of the budget; empty where it keeps it.
    fn missed(&self, medians: &Medians) -> String {
        let [.., half, full] = medians;
        let mut missed = String::new();
        if ratio(full[0], full[1]) > self.ratio {
            missed += " RATIO";
        }
        if self.growth_bound && ratio(full[0], half[0]) > GROWTH {
            missed += " GROWTH";
        }
        missed
    }

    /// Measures and prints the row; gives the count of differing answers and missed budgets.
    fn print(&self, (family, problem): Family) -> usize {
        let (name, calls) = (&self.name, self.calls);
        let [(operation, side), (other, _)] = calls;
        let mut faults = 0;
        let mut lent = SIZES.map(|n| {
            let one = Lent::new(problem(n), operation);
            if side == OursWith {
                one.measured()
            } else {
                one
            }
        });
        for (one, n) in lent.iter_mut().zip(SIZES) {
            if operation == other && !one.agree(calls) {
                println!("{family} {name} {n}: the answers differ");
                faults += 1;
            }
        }
        let mut medians = measure(&mut lent, calls, 1);
        for patience in 2..=TRIES as u32 {
            if !self.missed(&medians).is_empty() {
                medians = measure(&mut lent, calls, patience);
            }
        }
        let missed = self.missed(&medians);
        faults += usize::from(!missed.is_empty());
        print!("{family:<15}{name:<16}");
        for [one, other] in medians {
            let micros = |time: Duration| time.as_secs_f64() * 1e6;
            let (one_micros, other_micros) = (micros(one), micros(other));
            let ratio = ratio(one, other);
            print!("{one_micros:>9.1}{other_micros:>9.1}{ratio:>6.2}");
        }
        let [.., half, full] = medians;
        let allowed = if self.growth_bound {
            format!("{GROWTH}")
        } else {
            "no budget".into()
        };
        println!("{:>8.2}{allowed:>12}{missed}", ratio(full[0], half[0]));
        faults
    }
}

/// A family's rows without lengths; gives the count of faults.
fn without_lengths(family: Family) -> usize {
    let rows = OPERATIONS.map(|(name, operation, unbounded)| Row {
        name: name.into(),
        calls: [(operation, Ours), (operation, Plain)],
        ratio: RATIO,
        growth_bound: unbounded.is_none(),
    });
    rows.iter().map(|row| row.print(family)).sum()
}

/// A family's rows with lengths, beside the library without them and beside plain Rust with them; gives the count of
/// faults.
fn with_lengths(family: Family) -> usize {
    let rows = LENGTH_OPERATIONS
        .iter()
        .flat_map(|&(name, operation, more)| {
            [("without", Ours, more), ("plain", PlainWith, RATIO)].map(|(beside, other, ratio)| {
                Row {
                    name: format!("{name}, {beside}"),
                    calls: [(operation, OursWith), (operation, other)],
                    ratio,
                    growth_bound: true,
                }
            })
        });
    rows.map(|row| row.print(family)).sum()
}

/// A family's row of method 3 beside method 2, whose answers are held to plain Rust's; gives the count of faults.
fn methods(family: Family) -> usize {
    let operations = [Plan(ffi::METHOD_GN2), Plan(ffi::METHOD_GN1)];
    let mut faults = 0;
    for n in SIZES {
        let differs = |&operation: &Operation| {
            let calls = [(operation, Ours), (operation, Plain)];
            !Lent::new(family.1(n), operation).agree(calls)
        };
        if operations.iter().any(differs) {
            println!("{} {n}: the answers differ", family.0);
            faults += 1;
        }
    }
    let row = Row {
        name: "plan 3, plan 2".into(),
        calls: operations.map(|operation| (operation, Ours)),
        ratio: METHODS,
        growth_bound: true,
    };
    faults + row.print(family)
}

fn main() -> ExitCode {
    let wished: Vec<String> = std::env::args().skip(1).collect();
    if let Some(word) = wished
        .iter()
        .find(|w| FAMILIES.iter().chain(&WAITING).all(|(name, _)| name != *w))
    {
        eprintln!("{word} is no family");
        return ExitCode::FAILURE;
    }
    preface();
    let chosen = |(name, _): &Family| wished.is_empty() || wished.iter().any(|w| w == name);
    let mut faults = 0;
    let families: Vec<Family> = FAMILIES.into_iter().filter(chosen).collect();
    if !families.is_empty() {
        head(["library", "plain"]);
        faults += families.into_iter().map(without_lengths).sum::<usize>();
    }
    let families: Vec<Family> = WAITING.into_iter().filter(chosen).collect();
    if !families.is_empty() {
        println!("\nWhere slabs wait, the library by method 3 beside itself by method 2.");
        println!(
            "Budget: method 3 at most {METHODS} times the time of method 2 at 4,000 slabs, growth at most {GROWTH}."
        );
        head(["method 3", "method 2"]);
        faults += families.into_iter().map(methods).sum::<usize>();
    }
    let measured = |family: &Family| chosen(family) && WITH_LENGTHS.contains(&family.0);
    let families: Vec<Family> = FAMILIES.into_iter().filter(measured).collect();
    if !families.is_empty() {
        println!(
            "\nWith lengths, beside the library without them and beside plain Rust with them."
        );
        for (name, _, more) in LENGTH_OPERATIONS {
            println!(
                "Budget: {name} with lengths at most {more} of the time without, at 4,000 slabs."
            );
        }
        head(["with", "other"]);
        faults += families.into_iter().map(with_lengths).sum::<usize>();
    }
    if faults == 0 {
        println!("The budget is kept.");
        ExitCode::SUCCESS
    } else {
        println!("{faults} missed or differing.");
        ExitCode::FAILURE
    }
}
