//! What is read out of a run of either build: the first limit met, the deepest depth, the steps and the grids.

#![warn(dead_code, clippy::all)]

use super::*;
use crate::{
    block::{Cell, ColouredBlock},
    clock,
    raw::{self, Answer},
    solver::{line::Placing, probing::FullProbe1},
};

/// The search over the stand-in.
pub type Search<S = Placing> = Solver<ColouredBlock, FullProbe1<ColouredBlock>, S>;

impl<B, P, S> Solver<B, P, S>
where
    B: Block,
    P: ProbeSolver<BlockType = B>,
    S: LineSolver<BlockType = B>,
{
    /// Asks the published function, and notes which limit was met: grids, steps and depth are asked in this order.
    pub(super) fn limits_reached(&self, depth: usize) -> bool {
        let met = [
            self.max_solutions
                .is_some_and(|most| self.solutions.len() >= most),
            self.timeout
                .is_some_and(|budget| self.steps() >= budget.into()),
            self.max_depth.is_some_and(|most| depth > most),
        ];
        let first = (1..).zip(met).find(|&(_, met)| met);
        let reached = self.limits_reached_as_published(depth);
        assert!(
            reached == first.is_some(),
            "the published limits are read in another way"
        );
        if let Some((limit, _)) = first {
            clock::note_limit(limit);
        }
        reached
    }

    /// The steps since the search began at depth 0; zero before.
    fn steps(&self) -> u64 {
        self.start_time.map_or(0, |start| start.elapsed().as_secs())
    }
}

/// The search over bytes. What is refused, and where the answer's bytes go, is the same for both builds.
#[allow(clippy::too_many_arguments)]
pub fn solve(
    w: usize,
    h: usize,
    k: usize,
    clues: &[u8],
    cells: &mut [u8],
    list: &mut [u8],
    most_grids: usize,
    most_depth: usize,
    budget: u64,
) -> Answer {
    solve_by::<Placing>(w, h, k, clues, cells, list, most_grids, most_depth, budget)
}

/// The same by any line solver of the stand-in.
#[allow(clippy::too_many_arguments)]
pub fn solve_by<S: LineSolver<BlockType = ColouredBlock>>(
    w: usize,
    h: usize,
    k: usize,
    clues: &[u8],
    cells: &mut [u8],
    list: &mut [u8],
    most_grids: usize,
    most_depth: usize,
    budget: u64,
) -> Answer {
    if let Some(number) = raw::refusal(w, h, k, clues, cells, list, most_grids, most_depth, budget)
    {
        return Answer::refused(number);
    }
    let board = MutRc::new(Board::new(
        w,
        h,
        raw::clues_of(clues),
        cells.iter().copied().map(Cell).collect(),
    ));
    clock::reset();
    let mut search = Search::<S>::with_options(
        MutRc::clone(&board),
        Some(most_grids),
        Some(budget as u32),
        Some(most_depth),
    );
    let number = match search.run() {
        Err(_) => 3,
        Ok(()) if search.start_time.is_none() => 1,
        Ok(()) => 2,
    };
    put(cells, board.read().cells());
    if number == 2 {
        for (part, grid) in list.chunks_exact_mut(w * h).zip(&search.solutions) {
            put(part, grid);
        }
    }
    Answer {
        number,
        grids: search.solutions.len(),
        steps: search.steps(),
        deepest: search.depth_reached,
        limit: clock::first_limit(),
        mends: clock::mends(),
    }
}

fn put(bytes: &mut [u8], cells: &[Cell]) {
    for (byte, cell) in bytes.iter_mut().zip(cells) {
        *byte = cell.0;
    }
}
