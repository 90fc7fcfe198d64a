//! Small inputs on which the published search differs from the rules, for each mend.

use oracle::{
    generate::{any_kind, clues_of_grid, sparse, Random},
    mended,
    puzzle::Puzzle,
    unmended,
};

const SEED: u64 = 4;
const BUDGET: u64 = 400;

/// Boards of one cell tried for each mend, before larger ones are looked for and made smaller.
const ONE_CELL: usize = 2_000;

/// Larger boards made smaller for each mend, and the changes tried on each.
const STARTS: usize = 12;
const CHANGES: usize = 6_000;

/// Sizes of the boards that are made smaller.
const SIZES: [(usize, usize); 6] = [(2, 10), (2, 12), (3, 12), (5, 5), (5, 6), (6, 6)];

/// How well a puzzle shows what a mend is for.
#[derive(Clone, Copy, PartialEq, Eq, PartialOrd, Ord)]
enum Shown {
    Nothing,
    /// The mend acts.
    Acts,
    /// It alone acts, no limit is met, and the two searches differ.
    Differs,
    /// So that the published list is short of grids.
    ListsFewer,
}

/// Prints for each mend the smallest inputs found on which it alone acts.
pub fn report() -> Result<(), String> {
    for mend in 1..=4 {
        let mut random = Random::new(SEED);
        let mut found = one_cell(&mut random, mend);
        if found.is_empty() {
            found = shrunk(&mut random, mend);
        }
        if found.is_empty() {
            return Err(format!("no input was found on which M{mend} alone acts"));
        }
        for puzzle in found {
            print!("M{mend}: {puzzle}");
            println!("as published: {}", puzzle.run(unmended::solve));
            println!("mended: {}\n", puzzle.run(mended::solve));
        }
    }
    Ok(())
}

fn shown(puzzle: &Puzzle, mend: u8) -> Shown {
    let mended = puzzle.run(mended::solve);
    if mended.answer.mends >> (mend - 1) & 1 == 0 {
        return Shown::Nothing;
    }
    let published = puzzle.run(unmended::solve);
    let alone = mended.answer.mends == 1 << (mend - 1);
    let unlimited = mended.answer.limit == 0 && published.answer.limit == 0;
    if !alone || !unlimited || published.differences(&mended).is_empty() {
        return Shown::Acts;
    }
    if published.answer.grids < mended.answer.grids {
        return Shown::ListsFewer;
    }
    Shown::Differs
}

/// What is smaller: fewer cells, then fewer colours, narrowed sets and blocks.
fn size(puzzle: &Puzzle) -> (usize, usize, usize, usize) {
    let open = (1 << (puzzle.k + 1)) - 1;
    let narrowed = puzzle.cells.iter().filter(|&&cell| cell != open).count();
    (puzzle.cells.len(), puzzle.k, narrowed, puzzle.clues.len())
}

fn one_cell(random: &mut Random, mend: u8) -> Vec<Puzzle> {
    let puzzles = (0..ONE_CELL).map(|_| any_kind(random, 1, 1, 1).with_limits(1, 15, 100));
    let showing = puzzles.filter(|puzzle| shown(puzzle, mend) >= Shown::Differs);
    showing.min_by_key(size).into_iter().collect()
}

/// The smallest puzzles of those that differ and of those that list fewer grids.
fn shrunk(random: &mut Random, mend: u8) -> Vec<Puzzle> {
    let mut differing = None;
    let mut listing = None;
    for _ in 0..STARTS {
        let mut draft = Draft::start(random, mend);
        let mut before = shown(&draft.puzzle(), mend);
        for _ in 0..CHANGES {
            let Some((changed, after)) = draft.smaller(random, mend, before) else {
                continue;
            };
            (draft, before) = (changed, after);
            match after {
                Shown::Differs => keep_smaller(&mut differing, draft.puzzle()),
                Shown::ListsFewer => keep_smaller(&mut listing, draft.puzzle()),
                _ => {}
            }
        }
    }
    differing.into_iter().chain(listing).collect()
}

fn keep_smaller(smallest: &mut Option<Puzzle>, puzzle: Puzzle) {
    if smallest
        .as_ref()
        .is_none_or(|best| size(&puzzle) < size(best))
    {
        *smallest = Some(puzzle);
    }
}

/// A grid and the sets given with it; the clues are the grid's own.
#[derive(Clone)]
struct Draft {
    w: usize,
    h: usize,
    k: usize,
    /// A colour number for each cell.
    grid: Vec<u8>,
    cells: Vec<u8>,
}

impl Draft {
    /// A puzzle in which the mend acts and a grid is listed, found at random.
    fn start(random: &mut Random, mend: u8) -> Self {
        loop {
            let (w, h) = random.pick(&SIZES);
            let k = random.pick(&[1, 1, 2, 3]);
            let puzzle = sparse(random, w, h, k).with_limits(128, 15, BUDGET);
            let outcome = puzzle.run(mended::solve);
            let acts = outcome.answer.mends >> (mend - 1) & 1 == 1;
            if let (true, Some(grid)) = (acts, outcome.grids().first()) {
                let grid = grid
                    .iter()
                    .map(|cell| cell.trailing_zeros() as u8)
                    .collect();
                let cells = puzzle.cells;
                return Self {
                    w,
                    h,
                    k,
                    grid,
                    cells,
                };
            }
        }
    }

    fn puzzle(&self) -> Puzzle {
        let clues = clues_of_grid(&self.grid, self.w, self.h);
        let puzzle = Puzzle::new(self.w, self.h, self.k, &clues, self.cells.clone());
        puzzle.with_limits(128, 15, BUDGET)
    }

    /// The draft after a few changes, if it is no larger and shows the mend as well; sometimes with more narrowed sets.
    fn smaller(&self, random: &mut Random, mend: u8, before: Shown) -> Option<(Self, Shown)> {
        let mut changed = self.clone();
        for _ in 0..random.between(1, 3) {
            changed.change(random);
        }
        let puzzle = changed.puzzle();
        let (old, new) = (size(&self.puzzle()), size(&puzzle));
        let no_larger = new <= old || new.0 <= old.0 && random.percent(20);
        let after = if no_larger {
            shown(&puzzle, mend)
        } else {
            Shown::Nothing
        };
        (after >= before.max(Shown::Acts)).then_some((changed, after))
    }

    fn change(&mut self, random: &mut Random) {
        let open = (1 << (self.k + 1)) - 1;
        let at = random.below(self.grid.len());
        let (column, row) = (at % self.w, at / self.w);
        match random.below(6) {
            0 if self.h > 1 => {
                self.keep(|_, y| y != row);
                self.h -= 1;
            }
            1 if self.w > 1 => {
                self.keep(|x, _| x != column);
                self.w -= 1;
            }
            2 => {
                self.grid[at] = random.between(0, self.k) as u8;
                self.cells[at] |= 1 << self.grid[at];
            }
            3 => self.cells[at] = 1 << self.grid[at] | random.bits() as u8 & open,
            4 if self.k > 1 => self.drop_colour(),
            _ => self.cells[at] = open,
        }
    }

    fn keep(&mut self, kept: impl Fn(usize, usize) -> bool) {
        let w = self.w;
        let keep = |list: &[u8]| -> Vec<u8> {
            let places = (0..list.len()).filter(|at| kept(at % w, at / w));
            places.map(|at| list[at]).collect()
        };
        (self.grid, self.cells) = (keep(&self.grid), keep(&self.cells));
    }

    /// Gives the cells of the highest colour the one below it.
    fn drop_colour(&mut self) {
        let highest = self.k as u8;
        self.k -= 1;
        for (colour, cell) in self.grid.iter_mut().zip(&mut self.cells) {
            if *colour == highest {
                *colour -= 1;
            }
            *cell = *cell & !(1 << highest) | 1 << *colour;
        }
    }
}
