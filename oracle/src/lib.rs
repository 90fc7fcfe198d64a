//! The published search of nonogrid over a plain stand-in for the parts that it calls, as the judge of Belutharin.
//!
//! `unmended::solve` runs the files as published, `mended::solve` with the four mends of docs/RULES.md: both take bytes and give
//! its numbers. `raw` holds what needs no search, `apart` has the mended search and the reduction of a line under
//! another meaning of a clue, `generate` makes puzzles from a seed, and `damage` breaks them.

// Both builds are read out by one file.
#![allow(clippy::duplicate_mod)]

extern crate alloc;
// The published files ask `std` for the time and for an environment variable. Inside this crate that name means the crate
// itself, so that the clock counts steps and the environment is empty without a change to the files.
extern crate self as std;

use core::{cmp, fmt, marker};

mod block;
mod board;
mod clock;
pub mod damage;
pub mod generate;
pub mod puzzle;
pub mod raw;
mod replaced;
mod solver;
mod utils;

use clock as time;

/// The search as published.
pub mod unmended {
    pub use crate::solver::unmended::reading::solve;
}

/// The search with the four mends.
pub mod mended {
    pub use crate::solver::mended::reading::solve;
}

/// The mended search and the reduction of a line as they would be if no two blocks might touch, whatever their colours. The
/// rules ask for nothing of the kind: beside these one sees on which inputs it matters that colours may touch.
pub mod apart {
    use crate::{
        puzzle::{Outcome, Puzzle},
        raw,
        solver::{line::Placing, mended::reading},
    };

    /// Runs a puzzle.
    pub fn run(puzzle: &Puzzle) -> Outcome {
        puzzle.run(reading::solve_by::<Placing<false>>)
    }

    /// Whether a puzzle comes to something else than this outcome, which is the mended search's. There is nothing to tell
    /// where it is refused or has one colour.
    pub fn differs(puzzle: &Puzzle, outcome: &Outcome) -> Option<bool> {
        let differs = || !run(puzzle).differences(outcome).is_empty();
        (puzzle.k > 1 && outcome.answer.number <= 3).then(differs)
    }

    /// The same for one line.
    pub fn line_differs(k: usize, clue: &[u8], cells: &[u8]) -> Option<bool> {
        let (mut touching, mut parted) = (cells.to_vec(), cells.to_vec());
        let number = raw::reduce_line(k, clue, &mut touching);
        let other = raw::reduce_line_by::<Placing<false>>(k, clue, &mut parted);
        (k > 1 && number <= 3).then_some((number, touching) != (other, parted))
    }
}

/// What the published files see of the environment: no variable is set, so that `LOW_PRIORITY` keeps its default.
mod env {
    pub fn var(_name: &str) -> Result<String, ()> {
        Err(())
    }
}
