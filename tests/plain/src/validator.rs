//! Replay of a list of moves.

use crate::problem::{overhangs, refused, Problem, Refusal, MOST};
use crate::Sheet;

/// The verdict and its place.
pub fn replay(sheet: Sheet, moves: &[u16]) -> Result<(u64, u64), Refusal> {
    let Problem {
        n,
        mut support,
        mut load,
        goal,
        ..
    } = Problem::read(sheet, MOST)?;
    let pairs = moves.chunks_exact(2);
    if !pairs.remainder().is_empty() {
        return Err(refused(11));
    }
    for (i, pair) in pairs.enumerate() {
        let (block, to) = (usize::from(pair[0]), usize::from(pair[1]));
        let verdict = if block < 1 || block > n || to > n {
            1
        } else if load[block] != 0 {
            2
        } else if usize::from(support[block]) == to {
            3
        } else if to == block || load[to] != 0 {
            4
        } else if sheet.lengths.is_some_and(|l| overhangs(l, block, to)) {
            6
        } else {
            load[usize::from(support[block])] = 0;
            support[block] = pair[1];
            if to != 0 {
                load[to] = pair[0];
            }
            continue;
        };
        return Ok((verdict, i as u64 + 1));
    }
    // Entry 0 is the table's and the same in both, so an index is a block.
    let differs = support.iter().zip(&goal).position(|(a, b)| a != b);
    Ok(differs.map_or((0, 0), |block| (5, block as u64)))
}
