//! What is asked: a puzzle, and the limits of its search.

/// A block of a clue: so many cells in a row, all of one colour.
#[derive(Clone, Copy, Debug, PartialEq, Eq, Hash)]
pub struct Block {
    /// 1 to 3.
    pub colour: u8,
    /// 1 to 16.
    pub length: u8,
}

impl From<u8> for Block {
    /// A block of colour 1.
    fn from(length: u8) -> Self {
        Self { colour: 1, length }
    }
}

impl From<(u8, u8)> for Block {
    /// A colour and a length.
    fn from((colour, length): (u8, u8)) -> Self {
        Self { colour, length }
    }
}

/// A puzzle: the clues of its rows and columns, and what is known of its cells.
///
/// A clue is a `Vec` of blocks. A block is a length, where there is one colour, or a colour and a length:
///
/// ```
/// use belutharin::Puzzle;
///
/// let black = Puzzle::new(vec![vec![1], vec![1]], vec![vec![1], vec![1]]);
/// let coloured = Puzzle::new(
///     vec![vec![(1, 1), (2, 1)], vec![]],
///     vec![vec![(1, 1)], vec![], vec![(2, 1)]],
/// );
/// assert_eq!((black.width(), black.height(), black.colours()), (2, 2, 1));
/// assert_eq!((coloured.width(), coloured.height(), coloured.colours()), (3, 2, 2));
/// ```
///
/// A line meets its clue exactly if the stretches of equal colours other than blank that it falls into are the clue's blocks, in order. So blocks of
/// different colours may touch, and between two neighbouring blocks of the same colour there is a blank:
///
/// ```
/// use belutharin::{solve, Limits, Puzzle};
///
/// let touching = Puzzle::new(vec![vec![(1, 1), (2, 1)]], vec![vec![(1, 1)], vec![(2, 1)]]);
/// let answer = solve(&touching, Limits::default())?;
/// assert_eq!(answer.grids().next().map(|grid| grid.to_string()).as_deref(), Some("12\n"));
///
/// let too_close = Puzzle::new(vec![vec![1, 1]], vec![vec![1], vec![1], vec![]]);
/// assert_eq!(solve(&too_close, Limits::default())?.grids().count(), 0);
/// # Ok::<(), belutharin::Refusal>(())
/// ```
///
/// Nothing is tested here. [`solve`](crate::solve) refuses a puzzle that it can't take and says why.
#[derive(Clone, Debug, PartialEq, Eq)]
pub struct Puzzle {
    rows: Vec<Vec<Block>>,
    columns: Vec<Vec<Block>>,
    colours: usize,
    cells: Vec<u8>,
}

impl Puzzle {
    /// A puzzle with all cells open. There are as many colours as the highest that a clue names, and at least one.
    pub fn new<B: Into<Block>>(rows: Vec<Vec<B>>, columns: Vec<Vec<B>>) -> Self {
        let blocks = |clues: Vec<Vec<B>>| -> Vec<Vec<Block>> {
            let clue = |clue: Vec<B>| clue.into_iter().map(Into::into).collect();
            clues.into_iter().map(clue).collect()
        };
        let (rows, columns) = (blocks(rows), blocks(columns));
        let named = rows.iter().chain(&columns).flatten();
        let highest = named.map(|block| block.colour).max().unwrap_or(0);
        Self {
            rows,
            columns,
            colours: 0,
            cells: Vec::new(),
        }
        .with_colours(usize::from(highest.max(1)))
    }

    /// The puzzle with so many colours besides blank, and all cells open.
    pub fn with_colours(self, colours: usize) -> Self {
        let cells = vec![open(colours); self.width() * self.height()];
        Self {
            colours,
            cells,
            ..self
        }
    }

    /// The puzzle with these cells, row by row. A cell is the set of the colours that it may still have: bit 0 is blank, bit c is colour c.
    pub fn with_cells(self, cells: Vec<u8>) -> Self {
        Self { cells, ..self }
    }

    /// The puzzle with one cell known: 0 is blank. A cell that lies outside, or a colour above 7, changes nothing.
    ///
    /// ```
    /// use belutharin::{solve, Answer, Limits, Puzzle};
    ///
    /// let twin = Puzzle::new(vec![vec![1], vec![1]], vec![vec![1], vec![1]]);
    /// let answer = solve(&twin.with_known(0, 1, 1), Limits::default())?;
    /// assert!(matches!(answer, Answer::Solved(_)));
    /// # Ok::<(), belutharin::Refusal>(())
    /// ```
    pub fn with_known(mut self, row: usize, column: usize, colour: u8) -> Self {
        let inside = row < self.height() && column < self.width() && colour < 8;
        let at = row * self.width() + column;
        if let Some(cell) = self.cells.get_mut(at).filter(|_| inside) {
            *cell = 1 << colour;
        }
        self
    }

    /// The number of columns.
    pub fn width(&self) -> usize {
        self.columns.len()
    }

    /// The number of rows.
    pub fn height(&self) -> usize {
        self.rows.len()
    }

    /// The number of colours besides blank.
    pub fn colours(&self) -> usize {
        self.colours
    }

    /// The sets of the cells, row by row.
    pub fn cells(&self) -> &[u8] {
        &self.cells
    }

    /// The clues of the rows, from the top.
    pub fn rows(&self) -> &[Vec<Block>] {
        &self.rows
    }

    /// The clues of the columns, from the left.
    pub fn columns(&self) -> &[Vec<Block>] {
        &self.columns
    }

    /// The clues as the library reads them.
    pub(crate) fn clue_bytes(&self) -> Vec<u8> {
        let clues = self.rows.iter().chain(&self.columns);
        clues.flat_map(|clue| clue_bytes(clue)).collect()
    }
}

/// The set of blank and all colours, or as many as a byte has room for: more than 3 are refused in any case.
fn open(colours: usize) -> u8 {
    u8::MAX >> 7_usize.saturating_sub(colours)
}

/// The bytes of one clue. A count that a byte has no room for is given as 255, which is refused as it should be.
pub(crate) fn clue_bytes(clue: &[Block]) -> Vec<u8> {
    let count = u8::try_from(clue.len()).unwrap_or(u8::MAX);
    let blocks = clue.iter().flat_map(|block| [block.colour, block.length]);
    std::iter::once(count).chain(blocks).collect()
}

/// When a search ends before it has seen everything.
///
/// ```
/// use belutharin::Limits;
///
/// let limits = Limits { most_grids: 2, ..Limits::default() };
/// assert_eq!((limits.most_depth, limits.budget), (15, 100_000));
/// ```
///
/// A longer run only adds. With a larger budget, more grids or both, at the same `most_depth`, a puzzle that was solved or a dead end is so again, and the
/// grids that were listed are the first of the list; where there were none, it may be a dead end. If no limit was met, all stays. This holds if neither
/// run is refused, and nothing is said of a larger `most_depth`.
///
/// ```
/// use belutharin::{solve, Limits, Puzzle};
///
/// let twin = Puzzle::new(vec![vec![1], vec![1]], vec![vec![1], vec![1]]);
/// let short = solve(&twin, Limits { budget: 1, ..Limits::default() })?;
/// let longer = solve(&twin, Limits::default())?;
/// assert_eq!((short.grids().count(), longer.grids().count()), (1, 2));
/// assert!(short.grids().eq(longer.grids().take(1)));
/// # Ok::<(), belutharin::Refusal>(())
/// ```
#[derive(Clone, Copy, Debug, PartialEq, Eq)]
pub struct Limits {
    /// The search ends with so many grids stored: at most 128.
    pub most_grids: usize,
    /// No path of guesses gets longer: at most 15.
    pub most_depth: usize,
    /// The search ends after so many steps: at most 1,000,000,000. A step is a colour assumed, or a guess.
    pub budget: u64,
}

impl Default for Limits {
    /// The widest that there are, but for a budget of 100,000 steps.
    fn default() -> Self {
        Self {
            most_grids: 128,
            most_depth: 15,
            budget: 100_000,
        }
    }
}
