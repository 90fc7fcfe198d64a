//! Propagating from a cell: pending lines are reduced until none is pending.

use crate::{
    block::{Block, Color},
    board::{Board, Point},
    solver::line::{LineSolver, UnsolvableLine},
    utils::rc::MutRc,
};

#[derive(Debug)]
pub struct Solver<B: Block> {
    board: MutRc<Board<B>>,
}

/// The lines still to be reduced, a bit for each: rows, then columns, at most 32 in all.
struct Pending(u32);

impl Pending {
    fn add(&mut self, line: usize) {
        self.0 |= 1 << line;
    }

    fn take(&mut self) -> Option<usize> {
        let line = (self.0 != 0).then(|| self.0.trailing_zeros() as usize)?;
        self.0 &= self.0 - 1;
        Some(line)
    }
}

impl<B: Block> Solver<B> {
    /// The published name: no line is kept in a cache here.
    pub fn with_cache(board: MutRc<Board<B>>) -> Self {
        Self { board }
    }

    /// Propagates from the cell and gives the newly solved cells.
    pub fn run<S>(&mut self, start: Option<Point>) -> Result<Vec<Point>, UnsolvableLine>
    where
        S: LineSolver<BlockType = B>,
    {
        let mut board = self.board.write();
        let mut pending = Pending(0);
        if let Some(point) = start {
            pending.add(board.row_number(point.y));
            pending.add(board.column_number(point.x));
        }
        let mut newly_solved = Vec::new();
        while let Some(line) = pending.take() {
            let before = board.line(line);
            let mut after = before;
            let length = board.line_length(line);
            S::reduce(board.clue(line), &mut after[..length])?;
            for at in (0..length).filter(|&at| after[at] != before[at]) {
                let point = board.point(line, at);
                board.put(&point, after[at]);
                pending.add(board.crossing(line, at));
                if after[at].is_solved() {
                    newly_solved.push(point);
                }
            }
        }
        Ok(newly_solved)
    }
}
