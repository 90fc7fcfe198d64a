//! The pairs: puzzles of every kind and size, with limits near those that their search would meet.

use super::claims::Runs;
use crate::{
    cases::{drawing, seldom_mended},
    library,
};
use oracle::{
    generate::{any_kind, edited, misread, searching, sparse, Kind, Random, BUDGET},
    puzzle::Puzzle,
    raw::Answer,
};

/// The largest limits that are accepted.
pub const MOST_GRIDS: usize = 128;
const MOST_BUDGET: u64 = 1_000_000_000;

/// Two inputs that differ in most grids, budget and the lent list alone; no limit of the longer run
/// is lower.
#[derive(Clone)]
pub struct Pair {
    pub shorter: Puzzle,
    pub raise: Raise,
}

/// By how much the longer run's limits are raised, and how many bytes of its list are spare.
#[derive(Clone, Copy)]
pub struct Raise {
    pub grids: usize,
    pub budget: u64,
    spare: usize,
}

impl Pair {
    pub fn longer(&self) -> Puzzle {
        let most_grids = self.shorter.most_grids + self.raise.grids;
        Puzzle {
            most_grids,
            budget: self.shorter.budget + self.raise.budget,
            lent: most_grids * self.shorter.cells.len() + self.raise.spare,
            ..self.shorter.clone()
        }
    }

    /// Runs both by the library. An error says which byte was written that was not lent to be.
    pub fn runs(&self) -> Result<Runs, String> {
        Ok(Runs {
            given: self.shorter.cells.clone(),
            shorter: library::run(&self.shorter)?,
            longer: library::run(&self.longer())?,
        })
    }
}

/// Which limits are raised: the most grids, and the budget.
const RAISED: [(bool, bool); 8] = [
    (false, true),
    (false, true),
    (true, false),
    (true, false),
    (true, true),
    (true, true),
    (true, true),
    (false, false),
];

/// The pair of this number. It is the same for the same seed and number.
pub fn pair(seed: u64, number: usize) -> Pair {
    let random = &mut drawing(seed, number);
    let puzzle = puzzle(random);
    let spare = [0, 0, 1, 7, puzzle.cells.len()];
    let whole = puzzle.run(library::solve).answer;
    let (more_grids, more_budget) = random.pick(&RAISED);
    let (grids, by_grids) = limit(random, more_grids, whole.grids as u64, MOST_GRIDS as u64);
    let bound = largest_budget(random, whole, puzzle.budget);
    let (budget, by_budget) = limit(random, more_budget, whole.steps, bound);
    let depth = puzzle.most_depth;
    let mut shorter = puzzle.with_limits(grids as usize, depth, budget);
    shorter.lent += random.pick(&spare);
    let raise = Raise {
        grids: by_grids as usize,
        budget: by_budget,
        spare: random.pick(&spare),
    };
    Pair { shorter, raise }
}

/// The longest sides that are drawn.
const LONGEST: [usize; 20] = [3, 3, 4, 4, 5, 5, 5, 6, 6, 6, 6, 6, 7, 7, 7, 8, 8, 9, 12, 16];

/// How puzzles are made. Most dead ends in the search are misread.
const KINDS: [Kind; 8] = [
    any_kind, sparse, sparse, sparse, edited, misread, misread, misread,
];

/// A puzzle with a depth and with the widest limits that need no long wait. Most are small, and most
/// reach the search.
fn puzzle(random: &mut Random) -> Puzzle {
    let depth = random.pick(&[0, 0, 0, 1, 2, 15, 15, 15]);
    let puzzle = if random.percent(1) {
        seldom_mended(random)
    } else {
        let longest = random.pick(&LONGEST);
        let (kind, tries) = (random.pick(&KINDS), random.pick(&[1, 20, 20, 20, 20]));
        searching(random, kind, tries, |random| {
            let mut side = || random.between(longest.div_ceil(3), longest);
            (side(), side(), random.pick(&[1, 1, 2, 3]))
        })
    };
    puzzle.with_limits(MOST_GRIDS, depth, BUDGET)
}

/// The largest budget to be drawn: a large one only where the whole search ended within this one,
/// since it takes no longer then.
fn largest_budget(random: &mut Random, whole: Answer, budget: u64) -> u64 {
    if whole.steps < budget {
        random.pick(&[budget, 1_000_000, MOST_BUDGET])
    } else {
        whole.steps + random.below(whole.steps as usize) as u64
    }
}

/// A limit, and by how much it is raised: not at all, by one, or to another one. Limits are small,
/// near the amount that the whole search comes to, or the largest.
fn limit(random: &mut Random, raised: bool, amount: u64, largest: u64) -> (u64, u64) {
    let near = |random: &mut Random| {
        let small = random.below(3) as u64;
        let part = random.between(1, amount as usize + 1) as u64;
        let around = random.pick(&[amount.max(1) - 1, amount, amount + 1]);
        let drawn = random.pick(&[small, part, part, around, largest, largest]);
        drawn.min(largest)
    };
    let first = near(random);
    let second = match near(random) {
        _ if !raised => first,
        second if second == first || random.percent(20) => (first + 1).min(largest),
        second => second,
    };
    (first.min(second), first.abs_diff(second))
}
