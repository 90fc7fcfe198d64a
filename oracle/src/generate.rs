//! Puzzles from a seed: random grids with their clues, edited clues, given and wrong cells, and limits of every kind.

use crate::{
    board::LONGEST_LINE,
    mended,
    puzzle::{Clue, Puzzle},
    unmended,
};

/// Numbers that look random and are the same for the same seed.
#[derive(Clone, Debug)]
pub struct Random(u64);

impl Random {
    pub fn new(seed: u64) -> Self {
        Self(seed)
    }

    /// The next 64 bits, by splitmix64.
    pub fn bits(&mut self) -> u64 {
        self.0 = self.0.wrapping_add(0x9e37_79b9_7f4a_7c15);
        let mut z = self.0;
        z = (z ^ (z >> 30)).wrapping_mul(0xbf58_476d_1ce4_e5b9);
        z = (z ^ (z >> 27)).wrapping_mul(0x94d0_49bb_1331_11eb);
        z ^ (z >> 31)
    }

    /// A number below n.
    pub fn below(&mut self, n: usize) -> usize {
        ((u128::from(self.bits()) * n as u128) >> 64) as usize
    }

    /// A number from low to high, both included.
    pub fn between(&mut self, low: usize, high: usize) -> usize {
        low + self.below(high - low + 1)
    }

    /// True in this many of a hundred cases.
    pub fn percent(&mut self, chance: usize) -> bool {
        self.below(100) < chance
    }

    pub fn pick<T: Copy>(&mut self, from: &[T]) -> T {
        from[self.below(from.len())]
    }
}

/// How a puzzle is made, in parts of a hundred.
#[derive(Clone, Copy, Debug)]
struct Recipe {
    /// Cells of the grid that are not blank.
    filled: usize,
    /// Cells whose set is narrower than all colours; with 100 every cell is solved.
    given: usize,
    /// Puzzles with a clue or two edited.
    edited: usize,
    /// Puzzles with a cell or two set at random.
    wrong: usize,
    /// Puzzles with a line that is given solved and does not meet its clue.
    misread: usize,
}

/// A maker of puzzles of a given width, height and number of colours, with the widest limits but for the budget.
pub type Kind = fn(&mut Random, usize, usize, usize) -> Puzzle;

/// A puzzle of any kind. Most of these never reach the search.
pub fn any_kind(random: &mut Random, w: usize, h: usize, k: usize) -> Puzzle {
    let given = match random.below(100) {
        0..=44 => 0,
        45..=94 => random.between(1, 60),
        _ => 100,
    };
    let recipe = Recipe {
        filled: random.pick(&[15, 30, 40, 50, 60, 80]),
        given,
        edited: 20,
        wrong: 15,
        misread: 5,
    };
    recipe.puzzle(random, w, h, k)
}

/// A puzzle with few filled and few given cells, which often has several grids.
pub fn sparse(random: &mut Random, w: usize, h: usize, k: usize) -> Puzzle {
    sparse_recipe(random).puzzle(random, w, h, k)
}

/// A sparse puzzle with edited clues, which often has no grid.
pub fn edited(random: &mut Random, w: usize, h: usize, k: usize) -> Puzzle {
    let recipe = Recipe {
        edited: 100,
        ..sparse_recipe(random)
    };
    recipe.puzzle(random, w, h, k)
}

/// A sparse puzzle with a solved line that is wrong, so that only the final check can see it.
pub fn misread(random: &mut Random, w: usize, h: usize, k: usize) -> Puzzle {
    let recipe = Recipe {
        misread: 100,
        ..sparse_recipe(random)
    };
    recipe.puzzle(random, w, h, k)
}

fn sparse_recipe(random: &mut Random) -> Recipe {
    Recipe {
        filled: random.pick(&[25, 35, 45, 55]),
        given: random.pick(&[0, 0, 10, 20, 40]),
        edited: 0,
        wrong: 0,
        misread: 0,
    }
}

/// A puzzle of any kind and size with limits of any kind. Most of these reach the search.
pub fn any_limits(random: &mut Random, longest: usize) -> Puzzle {
    let tries = if random.percent(20) { 1 } else { 12 };
    let kind = random.pick::<Kind>(&[any_kind, sparse, sparse, sparse, edited, misread]);
    let puzzle = searching(random, kind, tries, |random| {
        (
            random.between(1, longest),
            random.between(1, longest),
            random.between(1, 3),
        )
    });
    limited(random, &puzzle)
}

/// A puzzle of this kind that reaches the search, or the last one tried. Width, height and colours are drawn for each try.
pub fn searching(
    random: &mut Random,
    kind: Kind,
    tries: usize,
    size: impl Fn(&mut Random) -> (usize, usize, usize),
) -> Puzzle {
    let mut left = tries;
    loop {
        let (w, h, k) = size(random);
        let puzzle = kind(random, w, h, k);
        left -= 1;
        if left == 0 || puzzle.run(mended::solve).searched() {
            return puzzle;
        }
    }
}

/// The budget of a puzzle before it is limited: enough to finish a small board, little enough to wait for.
pub const BUDGET: u64 = 1_500;

impl Recipe {
    fn puzzle(self, random: &mut Random, w: usize, h: usize, k: usize) -> Puzzle {
        let grid = random_grid(random, self.filled, w, h, k);
        let mut clues = clues_of_grid(&grid, w, h);
        let mut cells = self.cells(random, &grid, k);
        if random.percent(self.edited) {
            for _ in 0..random.between(1, 2) {
                let line = random.below(w + h);
                edit(random, &mut clues[line], k);
            }
        }
        if random.percent(self.misread) {
            let line = random.below(w + h);
            edit(random, &mut clues[line], k);
            for at in (0..w * h).filter(|at| at / w == line || h + at % w == line) {
                cells[at] = 1 << grid[at];
            }
        }
        Puzzle::new(w, h, k, &clues, cells).with_limits(128, 15, BUDGET)
    }

    /// The board that is given: open, partly given, solved, or wrong in places.
    fn cells(self, random: &mut Random, grid: &[u8], k: usize) -> Vec<u8> {
        let all = (1 << (k + 1)) - 1;
        let mut cells = vec![all; grid.len()];
        for (cell, &colour) in cells.iter_mut().zip(grid) {
            if random.percent(self.given) {
                let others = random.bits() as u8 & random.bits() as u8 & all;
                *cell = 1 << colour | if self.given < 100 { others } else { 0 };
            }
        }
        if random.percent(self.wrong) {
            for _ in 0..random.between(1, 2) {
                let at = random.below(cells.len());
                cells[at] = random.between(1, usize::from(all)) as u8;
            }
        }
        cells
    }
}

/// A random grid, a colour number for each cell, of which so many of a hundred are not blank. A cell beside others mostly
/// has a colour of theirs, and now and then any, so that colours touch. A grid of height 1 is a line.
pub fn random_grid(random: &mut Random, filled: usize, w: usize, h: usize, k: usize) -> Vec<u8> {
    let mut grid = vec![0; w * h];
    for at in 0..w * h {
        if !random.percent(filled) {
            continue;
        }
        let left = if at % w > 0 { grid[at - 1] } else { 0 };
        let above = if at >= w { grid[at - w] } else { 0 };
        let upward = left == 0 || above != 0 && random.percent(50);
        let beside = if upward { above } else { left };
        grid[at] = if beside != 0 && random.percent(70) {
            beside
        } else {
            random.between(1, k) as u8
        };
    }
    grid
}

/// The clues of a grid, given as a colour number for each cell.
pub fn clues_of_grid(grid: &[u8], w: usize, h: usize) -> Vec<Clue> {
    let row = |y: usize| (0..w).map(|x| grid[y * w + x]).collect();
    let column = |x: usize| (0..h).map(|y| grid[y * w + x]).collect();
    let lines = (0..h).map(row).chain((0..w).map(column));
    lines.map(|line: Vec<u8>| clue_of_line(&line)).collect()
}

/// The clue of a line, given as a colour number for each cell.
pub fn clue_of_line(line: &[u8]) -> Clue {
    line.chunk_by(|a, b| a == b)
        .filter(|run| run[0] != 0)
        .map(|run| (run[0], run.len() as u8))
        .collect()
}

/// The most blocks that a clue may have.
const MOST_BLOCKS: usize = 16;

/// Makes a block longer or shorter, gives it another colour, drops it, or adds one where there is room for one more.
pub fn edit(random: &mut Random, clue: &mut Clue, k: usize) {
    let at = random.below((clue.len() + 1).min(MOST_BLOCKS));
    let colour = random.between(1, k) as u8;
    if at == clue.len() {
        clue.push((colour, random.between(1, 2) as u8));
        return;
    }
    match random.below(5) {
        0 => clue[at].1 = (clue[at].1 + 1).min(LONGEST_LINE as u8),
        1 => clue[at].1 = (clue[at].1 - 1).max(1),
        2 => clue[at].0 = colour,
        3 if clue.len() < MOST_BLOCKS => clue.insert(at, (colour, 1)),
        _ => {
            clue.remove(at);
        }
    }
}

/// The same puzzle with limits near those that its search would meet, and a list that is exactly long enough or longer.
pub fn limited(random: &mut Random, puzzle: &Puzzle) -> Puzzle {
    let whole = puzzle.run(mended::solve).answer;
    let mut limited = puzzle.clone();
    let kind = random.below(8);
    if kind == 0 || kind > 4 {
        let grids = [
            0,
            1,
            2,
            whole.grids.max(1) - 1,
            whole.grids,
            whole.grids + 1,
        ];
        limited.most_grids = random.pick(&grids).min(puzzle.most_grids);
    }
    if kind == 1 || kind > 5 {
        let depth = [0, 1, 2, whole.deepest.max(1) - 1, whole.deepest];
        limited.most_depth = random.pick(&depth).min(puzzle.most_depth);
    }
    if kind == 2 || kind > 6 {
        let part = random.below(whole.steps as usize + 1) as u64;
        let steps = [0, 1, 2, part, part, whole.steps.max(1) - 1, whole.steps];
        limited.budget = random.pick(&steps).min(puzzle.budget);
    }
    let spare = [0, 0, 1, 7, puzzle.w * puzzle.h];
    limited.lent = limited.most_grids * puzzle.w * puzzle.h + random.pick(&spare);
    let unmet = |solve| limited.run(solve).answer.steps < limited.budget;
    // A larger budget takes no longer where neither build meets this one.
    if random.percent(30) && unmet(mended::solve) && unmet(unmended::solve) {
        limited.budget = random.pick(&[limited.budget + 1, 1_000_000, 1_000_000_000]);
    }
    limited
}
