//! Belutharin: a nonogram search in which every function is proved to meet its contract.
//!
//! ```
//! use belutharin::{solve, Answer, Limits, Puzzle};
//!
//! // Two by two cells, one filled cell in each row and each column.
//! let twin = Puzzle::new(vec![vec![1], vec![1]], vec![vec![1], vec![1]]);
//! let Answer::Listed(listed) = solve(&twin, Limits::default())? else {
//!     panic!("two grids fit, so that no clue decides between them");
//! };
//! assert!(listed.is_complete());
//! assert_eq!(listed.grids().len(), 2);
//! for grid in listed.grids() {
//!     println!("{grid}");
//! }
//! # Ok::<(), belutharin::Refusal>(())
//! ```
//!
//! [`solve`] takes a [`Puzzle`] and [`Limits`] and gives an [`Answer`], or a [`Refusal`] that says what is wrong with them. [`reduce_line`] and
//! [`rate`] are the search's parts that are of use by themselves. [`raw`] has the same on bytes and numbers, as the rules give them.

#![warn(missing_docs)]

mod answer;
mod puzzle;
pub mod raw;
mod refusal;

pub use answer::{Answer, Grid, Grids, Limit, Listed, Search, Solution};
pub use puzzle::{Block, Limits, Puzzle};
pub use refusal::{CellFault, ClueFault, Refusal};

/// Searches for the grids of a puzzle.
///
/// ```
/// use belutharin::{solve, Limits, Puzzle};
///
/// let wide = Puzzle::new(vec![vec![1]], vec![vec![1]; 17]);
/// let refusal = solve(&wide, Limits::default()).unwrap_err();
/// assert_eq!(refusal.number(), 11);
/// assert_eq!(refusal.to_string(), "the puzzle is 17 cells wide and 1 high; both must be 1 to 16");
/// ```
pub fn solve(puzzle: &Puzzle, limits: Limits) -> Result<Answer, Refusal> {
    let (w, h) = (puzzle.width(), puzzle.height());
    let mut cells = puzzle.cells().to_vec();
    // Room for the grids of every puzzle and all limits that are accepted, and never more.
    let mut list = vec![0; limits.most_grids.min(128) * w.min(16) * h.min(16)];
    let answer = raw::solve(
        w,
        h,
        puzzle.colours(),
        &puzzle.clue_bytes(),
        &mut cells,
        &mut list,
        limits.most_grids,
        limits.most_depth,
        limits.budget,
    );
    match answer.number {
        1 => Ok(Answer::Solved(Solution { width: w, cells })),
        2 => {
            list.truncate(answer.grids * w * h);
            Ok(Answer::Listed(Listed {
                width: w,
                cells,
                list,
                grids: answer.grids,
                search: Search::of(answer),
            }))
        }
        3 => Ok(Answer::DeadEnd(Search::of(answer))),
        number => Err(Refusal::of_puzzle(number, puzzle, limits)),
    }
}

/// What became of a line.
#[derive(Clone, Copy, Debug, PartialEq, Eq)]
pub enum Reduction {
    /// The cells have the reduced sets.
    Reduced,
    /// No line fits; the cells are as they were.
    Contradiction,
}

/// Reduces one line of 1 to 16 cells: each keeps the colours that it has in some line that fits the clue.
///
/// ```
/// use belutharin::{reduce_line, Reduction};
///
/// let mut cells = [0b11; 5];
/// assert_eq!(reduce_line(1, &[3.into()], &mut cells)?, Reduction::Reduced);
/// assert_eq!(cells, [0b11, 0b11, 0b10, 0b11, 0b11]);
/// # Ok::<(), belutharin::Refusal>(())
/// ```
pub fn reduce_line(colours: usize, clue: &[Block], cells: &mut [u8]) -> Result<Reduction, Refusal> {
    match raw::reduce_line(colours, &puzzle::clue_bytes(clue), cells) {
        1 => Ok(Reduction::Reduced),
        3 => Ok(Reduction::Contradiction),
        number => Err(Refusal::of_line(number, colours, clue, cells)),
    }
}

/// The rate by which a cell is chosen for guessing, where its colours newly solve `max` cells at most and `min` at least.
///
/// ```
/// assert_eq!(belutharin::rate(4, 0)?, 2.0);
/// # Ok::<(), belutharin::Refusal>(())
/// ```
pub fn rate(max: u64, min: u64) -> Result<f64, Refusal> {
    match raw::rate(max, min) {
        (0, rate) => Ok(rate),
        _ => Err(Refusal::Counts { max, min }),
    }
}
