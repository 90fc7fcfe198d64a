//! What is answered: grids, and how the search went.

use crate::raw;
use std::fmt;

/// What became of a puzzle.
#[derive(Clone, Debug, PartialEq, Eq)]
pub enum Answer {
    /// The clues lead to one grid without a guess.
    Solved(Solution),
    /// The search was needed, and these are the grids that it found.
    Listed(Listed),
    /// No grid fits the clues and the known cells.
    DeadEnd(Search),
}

impl Answer {
    /// The grids that were found: one, those of the list, or none.
    ///
    /// ```
    /// use belutharin::{solve, Limits, Puzzle};
    ///
    /// let twin = Puzzle::new(vec![vec![1], vec![1]], vec![vec![1], vec![1]]);
    /// let answer = solve(&twin, Limits::default())?;
    /// let drawn: Vec<String> = answer.grids().map(|grid| grid.to_string()).collect();
    /// assert_eq!(drawn, ["01\n10\n", "10\n01\n"]);
    /// # Ok::<(), belutharin::Refusal>(())
    /// ```
    pub fn grids(&self) -> Grids<'_> {
        match self {
            Self::Solved(solution) => Grids::of(&solution.cells, solution.width, 1),
            Self::Listed(listed) => listed.grids(),
            Self::DeadEnd(_) => Grids::of(&[], 1, 0),
        }
    }
}

/// The one grid of a puzzle that is solved without a guess.
#[derive(Clone, Debug, PartialEq, Eq)]
pub struct Solution {
    pub(crate) width: usize,
    pub(crate) cells: Vec<u8>,
}

impl Solution {
    /// The grid.
    pub fn grid(&self) -> Grid<'_> {
        Grid {
            width: self.width,
            cells: &self.cells,
        }
    }
}

/// The grids that a search found, and what it knows of the board besides.
#[derive(Clone, Debug, PartialEq, Eq)]
pub struct Listed {
    pub(crate) width: usize,
    pub(crate) cells: Vec<u8>,
    pub(crate) list: Vec<u8>,
    pub(crate) grids: usize,
    pub(crate) search: Search,
}

impl Listed {
    /// The grids, in the order in which they were found, no two alike.
    pub fn grids(&self) -> Grids<'_> {
        Grids {
            list: &self.list,
            width: self.width,
            height: self.cells.len() / self.width,
            n: self.grids,
            next: 0,
        }
    }

    /// Whether these are all the grids of the puzzle: no limit was met.
    pub fn is_complete(&self) -> bool {
        self.search.limit.is_none()
    }

    /// What is known of each cell in the end, row by row, as sets of colours: every grid of the puzzle has one of them there.
    /// It is what the clues tell without a guess, and what dead guesses at depth 0 have taught.
    pub fn known(&self) -> &[u8] {
        &self.cells
    }

    /// How the search went.
    pub fn search(&self) -> Search {
        self.search
    }
}

/// How a search went.
#[derive(Clone, Copy, Debug, PartialEq, Eq)]
pub struct Search {
    /// Colours assumed, and guesses.
    pub steps: u64,
    /// The deepest depth, counted from 1; 0 if no node was entered: there was no need to search, or a limit was met at once.
    pub deepest: usize,
    /// The limit met first.
    pub limit: Option<Limit>,
}

impl Search {
    pub(crate) fn of(answer: raw::Answer) -> Self {
        Self {
            steps: answer.steps,
            deepest: answer.deepest,
            limit: match answer.limit {
                1 => Some(Limit::Grids),
                2 => Some(Limit::Steps),
                3 => Some(Limit::Depth),
                _ => None,
            },
        }
    }
}

/// A limit that a search met.
#[derive(Clone, Copy, Debug, PartialEq, Eq)]
pub enum Limit {
    /// As many grids were stored as asked for.
    Grids,
    /// The budget of steps was spent.
    Steps,
    /// A path of guesses was as long as allowed.
    Depth,
}

/// Grids, one after the other.
#[derive(Clone, Debug)]
pub struct Grids<'a> {
    list: &'a [u8],
    width: usize,
    height: usize,
    n: usize,
    next: usize,
}

impl<'a> Grids<'a> {
    fn of(cells: &'a [u8], width: usize, n: usize) -> Self {
        Self {
            list: cells,
            width,
            height: (cells.len() / width).max(1),
            n,
            next: 0,
        }
    }
}

impl<'a> Iterator for Grids<'a> {
    type Item = Grid<'a>;

    fn next(&mut self) -> Option<Grid<'a>> {
        let (number, cells) = raw::grid(self.list, self.width, self.height, self.n, self.next);
        if number != 0 {
            return None;
        }
        self.next += 1;
        Some(Grid {
            width: self.width,
            cells,
        })
    }

    fn size_hint(&self) -> (usize, Option<usize>) {
        let left = self.n - self.next;
        (left, Some(left))
    }
}

impl ExactSizeIterator for Grids<'_> {}

/// A grid: a colour for each cell.
#[derive(Clone, Copy, Debug, PartialEq, Eq)]
pub struct Grid<'a> {
    width: usize,
    cells: &'a [u8],
}

impl<'a> Grid<'a> {
    /// The number of columns.
    pub fn width(self) -> usize {
        self.width
    }

    /// The number of rows.
    pub fn height(self) -> usize {
        self.cells.len() / self.width
    }

    /// The colour of a cell, 0 for blank; `None` outside the grid.
    pub fn colour(self, row: usize, column: usize) -> Option<u8> {
        let inside = row < self.height() && column < self.width;
        inside.then(|| colour(self.cells[row * self.width + column]))
    }

    /// The rows from the top, each with the colours of its cells.
    pub fn rows(self) -> impl Iterator<Item = Vec<u8>> + 'a {
        let row = |cells: &[u8]| cells.iter().copied().map(colour).collect();
        self.cells.chunks_exact(self.width).map(row)
    }

    /// The cells as the library has them, row by row: each a set of one colour.
    pub fn cells(self) -> &'a [u8] {
        self.cells
    }
}

/// The one colour of a set.
fn colour(set: u8) -> u8 {
    set.trailing_zeros() as u8
}

/// A digit for each cell, 0 for blank, and a line for each row.
impl fmt::Display for Grid<'_> {
    fn fmt(&self, f: &mut fmt::Formatter<'_>) -> fmt::Result {
        for row in self.rows() {
            for colour in row {
                write!(f, "{colour}")?;
            }
            writeln!(f)?;
        }
        Ok(())
    }
}
