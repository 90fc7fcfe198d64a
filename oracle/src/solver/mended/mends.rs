//! What the patches of the mended search call: the final check, storing at once, new guesses, and the board as given.

#![warn(dead_code, clippy::all)]

use super::*;
use crate::clock;

impl<B, P, S> Solver<B, P, S>
where
    B: Block,
    P: ProbeSolver<BlockType = B>,
    S: LineSolver<BlockType = B>,
{
    /// M1: a solved board is not taken on trust.
    pub(super) fn checked(&self) -> Result<(), String> {
        if self.board().meets_clues::<S>() {
            return Ok(());
        }
        clock::note_mend(1);
        Err("The final check failed".to_string())
    }

    /// M2: stores a board solved by the probing inside a guess; false if the final check fails.
    pub(super) fn store_if_solved(&mut self) -> bool {
        if !self.is_solved() {
            return true;
        }
        if self.checked().is_err() {
            return false;
        }
        let stored = self.solutions.len();
        self.add_solution();
        if self.solutions.len() > stored {
            clock::note_mend(2);
        }
        true
    }

    /// M3: the next guess. When none waits, and no cell is closed by guesses that were not dead, the first unsolved cell
    /// gives new ones.
    pub(super) fn next_guess(
        &self,
        waiting: &mut Vec<(Point, B::Color)>,
        not_dead: &[(Point, B::Color)],
        depth: usize,
    ) -> Option<(Point, B::Color)> {
        if waiting.is_empty() {
            let before = clock::first_limit();
            if self.limits_reached(depth) {
                if before == 0 {
                    clock::note_mend(3);
                }
                return None;
            }
            if !self.any_closed(not_dead) {
                self.add_first_unsolved(waiting);
            }
        }
        waiting.pop()
    }

    /// Whether some cell has only colours that were guessed here and were not dead.
    fn any_closed(&self, not_dead: &[(Point, B::Color)]) -> bool {
        not_dead.iter().any(|&(point, _)| {
            let colours = self.board().cell(&point).variants();
            colours
                .iter()
                .all(|&colour| not_dead.contains(&(point, colour)))
        })
    }

    /// Adds all colours of the first unsolved cell, so that the lowest is taken first.
    fn add_first_unsolved(&self, waiting: &mut Vec<(Point, B::Color)>) {
        let board = self.board();
        let first = board.unsolved_cells().next();
        if let Some(point) = first {
            clock::note_mend(3);
            let colours = board.cell(&point).variants();
            waiting.extend(colours.into_iter().rev().map(|colour| (point, colour)));
        }
    }

    /// M4: a dead end leaves the board as it was given.
    pub fn run(&mut self) -> Result<(), String> {
        let given = self.board().make_snapshot();
        let result = self.run_unrestored();
        if result.is_err() {
            if self.board().differs(&given) {
                clock::note_mend(4);
            }
            Board::restore_with_callback(&self.board, given);
        }
        result
    }
}
