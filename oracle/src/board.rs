//! The board: its clues, its cells row by row, and what the search does to them.

use crate::{
    block::{Block, Color},
    clock,
    solver::line::LineSolver,
    utils::rc::MutRc,
};

/// The most cells that a line can have.
pub const LONGEST_LINE: usize = 16;

/// A cell's place: column x, row y. The order is by row, then by column.
#[derive(Clone, Copy, Debug, PartialEq, Eq)]
pub struct Point {
    pub x: usize,
    pub y: usize,
}

impl Ord for Point {
    fn cmp(&self, other: &Self) -> core::cmp::Ordering {
        (self.y, self.x).cmp(&(other.y, other.x))
    }
}

impl PartialOrd for Point {
    fn partial_cmp(&self, other: &Self) -> Option<core::cmp::Ordering> {
        Some(self.cmp(other))
    }
}

/// Lines are numbered as clues stand: rows from the top, then columns from the left.
#[derive(Debug)]
pub struct Board<B: Block> {
    width: usize,
    height: usize,
    clues: Vec<Vec<B>>,
    cells: Vec<B::Color>,
}

impl<B: Block> Board<B> {
    pub fn new(width: usize, height: usize, clues: Vec<Vec<B>>, cells: Vec<B::Color>) -> Self {
        assert!(width <= LONGEST_LINE && height <= LONGEST_LINE);
        assert!(clues.len() == width + height && cells.len() == width * height);
        Self {
            width,
            height,
            clues,
            cells,
        }
    }

    pub fn width(&self) -> usize {
        self.width
    }

    pub fn height(&self) -> usize {
        self.height
    }

    fn at(&self, point: &Point) -> usize {
        point.y * self.width + point.x
    }

    pub fn cell(&self, point: &Point) -> B::Color {
        self.cells[self.at(point)]
    }

    pub fn put(&mut self, point: &Point, cell: B::Color) {
        let at = self.at(point);
        self.cells[at] = cell;
    }

    pub fn cells(&self) -> &[B::Color] {
        &self.cells
    }

    pub fn row_number(&self, y: usize) -> usize {
        y
    }

    pub fn column_number(&self, x: usize) -> usize {
        self.height + x
    }

    pub fn clue(&self, line: usize) -> &[B] {
        &self.clues[line]
    }

    pub fn line_length(&self, line: usize) -> usize {
        if line < self.height {
            self.width
        } else {
            self.height
        }
    }

    /// The cell of a line that has this number in it.
    pub fn point(&self, line: usize, at: usize) -> Point {
        if line < self.height {
            Point { x: at, y: line }
        } else {
            Point {
                x: line - self.height,
                y: at,
            }
        }
    }

    /// The line that crosses this one in its cell of that number.
    pub fn crossing(&self, line: usize, at: usize) -> usize {
        if line < self.height {
            self.column_number(at)
        } else {
            self.row_number(at)
        }
    }

    /// The line's cells, at the front of an array.
    pub fn line(&self, line: usize) -> [B::Color; LONGEST_LINE] {
        let mut cells = [B::Color::default(); LONGEST_LINE];
        for (at, cell) in cells[..self.line_length(line)].iter_mut().enumerate() {
            *cell = self.cell(&self.point(line, at));
        }
        cells
    }

    /// The final check: every row and column of a solved board meets its clue.
    pub fn meets_clues<S: LineSolver<BlockType = B>>(&self) -> bool {
        (0..self.clues.len())
            .all(|line| S::meets(self.clue(line), &self.line(line)[..self.line_length(line)]))
    }

    pub fn is_solved_full(&self) -> bool {
        self.cells.iter().all(Color::is_solved)
    }

    pub fn unsolved_cells(&self) -> impl Iterator<Item = Point> + '_ {
        let width = self.width;
        self.cells
            .iter()
            .enumerate()
            .filter(|(_, cell)| !cell.is_solved())
            .map(move |(at, _)| Point {
                x: at % width,
                y: at / width,
            })
    }

    /// The cells that share a side with this one and are not solved.
    pub fn unsolved_neighbours(&self, point: &Point) -> impl Iterator<Item = Point> + '_ {
        let Point { x, y } = *point;
        let above = (y > 0).then(|| Point { x, y: y - 1 });
        let left = (x > 0).then(|| Point { x: x - 1, y });
        let right = (x + 1 < self.width).then_some(Point { x: x + 1, y });
        let below = (y + 1 < self.height).then_some(Point { x, y: y + 1 });
        [above, left, right, below]
            .into_iter()
            .flatten()
            .filter(|neighbour| !self.cell(neighbour).is_solved())
    }

    pub fn row_solution_rate(&self, y: usize) -> f64 {
        self.line_solution_rate(self.row_number(y))
    }

    pub fn column_solution_rate(&self, x: usize) -> f64 {
        self.line_solution_rate(self.column_number(x))
    }

    fn line_solution_rate(&self, line: usize) -> f64 {
        share_solved(&self.line(line)[..self.line_length(line)])
    }

    /// Only logging asks for it.
    pub fn solution_rate(&self) -> f64 {
        share_solved(&self.cells)
    }

    pub fn make_snapshot(&self) -> Vec<B::Color> {
        self.cells.clone()
    }

    pub fn differs(&self, grid: &[B::Color]) -> bool {
        self.cells != grid
    }

    /// Assumes or guesses a colour. Every step of a search comes through here, and nothing else does.
    pub fn set_color_with_callback(board: &MutRc<Self>, point: &Point, colour: &B::Color) {
        clock::step();
        board.write().put(point, *colour);
    }

    /// Removes a colour; refuses to remove the last one.
    pub fn unset_color_with_callback(
        board: &MutRc<Self>,
        point: &Point,
        colour: &B::Color,
    ) -> Result<(), String> {
        let left = board.read().cell(point).without(*colour);
        let Some(left) = left else {
            return Err(format!("{colour:?} is the last colour of {point:?}"));
        };
        board.write().put(point, left);
        Ok(())
    }

    pub fn restore_with_callback(board: &MutRc<Self>, cells: Vec<B::Color>) {
        board.write().cells = cells;
    }
}

/// Solved cells divided by all cells.
fn share_solved<C: Color>(cells: &[C]) -> f64 {
    cells.iter().filter(|cell| cell.is_solved()).count() as f64 / cells.len() as f64
}
