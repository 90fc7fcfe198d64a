//! Reducing one line, by placing blocks: which blocks can still follow from which cell on.

use core::fmt::Debug;

use crate::{
    block::{Block, Cell, ColouredBlock},
    board::LONGEST_LINE,
};

/// No line that meets the clue takes its colours from the cells.
#[derive(Clone, Copy, Debug)]
pub struct UnsolvableLine;

pub trait LineSolver {
    type BlockType: Block;

    /// Keeps in each cell exactly the colours that it has in some fitting line. A line that no line fits stays as it is.
    fn reduce(
        clue: &[Self::BlockType],
        cells: &mut [<Self::BlockType as Block>::Color],
    ) -> Result<(), UnsolvableLine>;

    /// Whether a line of single colours meets the clue.
    fn meets(clue: &[Self::BlockType], cells: &[<Self::BlockType as Block>::Color]) -> bool;
}

/// The blanks that must stand between two neighbouring blocks: one where they have the same colour, and without `TOUCH` one in
/// any case.
fn blanks_between<const TOUCH: bool>(left: ColouredBlock, right: ColouredBlock) -> usize {
    usize::from(!TOUCH || left.colour == right.colour)
}

/// The line solver of the stand-in. `Placing<false>` lets no two blocks touch, whatever their colours: beside it one sees
/// where it matters that they may.
#[derive(Debug)]
pub struct Placing<const TOUCH: bool = true>;

impl<const TOUCH: bool> LineSolver for Placing<TOUCH> {
    type BlockType = ColouredBlock;

    fn reduce(clue: &[ColouredBlock], cells: &mut [Cell]) -> Result<(), UnsolvableLine> {
        let runs = Runs::new(cells);
        let line = Line::<TOUCH> {
            clue,
            length: cells.len(),
            runs: &runs,
        };
        let completable = line.completable();
        if !completable[0][0] {
            return Err(UnsolvableLine);
        }
        line.keep(&completable, cells);
        Ok(())
    }

    fn meets(clue: &[ColouredBlock], cells: &[Cell]) -> bool {
        let mut at = 0;
        let mut blocks = clue.iter();
        let mut previous: Option<(ColouredBlock, usize)> = None;
        while at < cells.len() {
            if cells[at] == Cell::only(0) {
                at += 1;
                continue;
            }
            let start = at;
            while at < cells.len() && cells[at] == cells[start] {
                at += 1;
            }
            let Some(&block) = blocks.next() else {
                return false;
            };
            let found = (cells[start], at - start);
            if found != (Cell::only(block.colour), usize::from(block.length)) {
                return false;
            }
            if let Some((left, end)) = previous {
                if start - end < blanks_between::<TOUCH>(left, block) {
                    return false;
                }
            }
            previous = Some((block, at));
        }
        blocks.next().is_none()
    }
}

const PLACES: usize = LONGEST_LINE + 1;

/// For a number of blocks placed and a number of cells passed, whether the rest of the line can be completed.
type Table = [[bool; PLACES]; PLACES];

/// For each colour and cell, how many cells from there on can have the colour without a break.
struct Runs([[u8; PLACES]; 4]);

impl Runs {
    fn new(cells: &[Cell]) -> Self {
        let mut runs = [[0; PLACES]; 4];
        for (colour, run) in (0..).zip(runs.iter_mut()) {
            for at in (0..cells.len()).rev() {
                run[at] = if cells[at].has(colour) {
                    run[at + 1] + 1
                } else {
                    0
                };
            }
        }
        Self(runs)
    }

    fn holds(&self, colour: u8, start: usize, length: usize) -> bool {
        usize::from(self.0[usize::from(colour)][start]) >= length
    }
}

/// A line and its clue. A place in it is a pair: blocks placed before, cells passed; a block may begin at once.
struct Line<'a, const TOUCH: bool> {
    clue: &'a [ColouredBlock],
    length: usize,
    runs: &'a Runs,
}

impl<const TOUCH: bool> Line<'_, TOUCH> {
    /// Where the next block ends and where the one after it may begin, if it can begin here.
    fn placed(&self, block: usize, start: usize) -> Option<(usize, usize)> {
        let here = *self.clue.get(block)?;
        let end = start + usize::from(here.length);
        if !self.runs.holds(here.colour, start, end - start) {
            return None;
        }
        let blanks = match self.clue.get(block + 1) {
            Some(&next) => blanks_between::<TOUCH>(here, next),
            None => 0,
        };
        self.runs
            .holds(0, end, blanks)
            .then_some((end, end + blanks))
    }

    /// The places from which the rest of the line can be completed, found from the end.
    fn completable(&self) -> Table {
        let mut table = [[false; PLACES]; PLACES];
        for block in (0..=self.clue.len()).rev() {
            for at in (0..=self.length).rev() {
                table[block][at] = if at == self.length {
                    block == self.clue.len()
                } else {
                    self.runs.holds(0, at, 1) && table[block][at + 1]
                        || self
                            .placed(block, at)
                            .is_some_and(|(_, next)| table[block + 1][next])
                };
            }
        }
        table
    }

    /// Follows every completable way from the start and keeps the colours met.
    fn keep(&self, completable: &Table, cells: &mut [Cell]) {
        let mut reached = [[false; PLACES]; PLACES];
        let mut kept = [0; LONGEST_LINE];
        reached[0][0] = true;
        for block in 0..=self.clue.len() {
            for at in 0..self.length {
                if !reached[block][at] {
                    continue;
                }
                if self.runs.holds(0, at, 1) && completable[block][at + 1] {
                    kept[at] |= 1;
                    reached[block][at + 1] = true;
                }
                if let Some((end, next)) = self.placed(block, at) {
                    if completable[block + 1][next] {
                        let colour = Cell::only(self.clue[block].colour);
                        kept[at..end].iter_mut().for_each(|set| *set |= colour.0);
                        kept[end..next].iter_mut().for_each(|set| *set |= 1);
                        reached[block + 1][next] = true;
                    }
                }
            }
        }
        for (cell, set) in cells.iter_mut().zip(kept) {
            *cell = Cell(set);
        }
    }
}
