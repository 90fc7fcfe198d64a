//! What is not accepted, and how that is said to a person.

use crate::puzzle::{Block, Limits, Puzzle};
use std::{error, fmt};

/// Why an input was not accepted. The library decides; what stands here beside its number is for the person who reads it.
#[derive(Clone, Debug, PartialEq, Eq)]
pub enum Refusal {
    /// Width or height is not 1 to 16.
    Size {
        /// The number of columns.
        width: usize,
        /// The number of rows.
        height: usize,
    },
    /// There are not 1 to 3 colours.
    Colours {
        /// The number of colours besides blank.
        colours: usize,
    },
    /// A limit is wider than allowed.
    Limits(Limits),
    /// A clue has too many blocks, or a block of a colour or a length that there is not.
    Clues(ClueFault),
    /// There are too few or too many cells, a cell without a colour, or one with a colour that there is not.
    Cells(CellFault),
    /// The list has no room for the grids asked for. [`solve`](crate::solve) makes its own list and never gives this.
    List,
    /// The counts of a rate are above 255, or the smaller one above the larger one.
    Counts {
        /// The largest count.
        max: u64,
        /// The smallest count.
        min: u64,
    },
}

/// What is wrong with a clue.
#[derive(Clone, Debug, PartialEq, Eq)]
pub struct ClueFault {
    /// The line, as in "row 2"; empty for a line that stands by itself. Rows and columns are counted from 0.
    pub line: String,
    /// What is wrong there.
    pub fault: String,
}

/// What is wrong with the cells.
#[derive(Clone, Debug, PartialEq, Eq)]
pub enum CellFault {
    /// There are too few or too many.
    Count {
        /// How many there are.
        cells: usize,
        /// How many there should be.
        needed: usize,
    },
    /// A line by itself has none, or more than 16.
    Line {
        /// How many there are.
        cells: usize,
    },
    /// One has no colour, or one that there is not.
    Set {
        /// Its place, counted from 0 row by row.
        at: usize,
        /// Its set.
        set: u8,
    },
}

impl Refusal {
    /// The number by which it was refused.
    pub fn number(&self) -> u8 {
        match self {
            Self::Size { .. } => 11,
            Self::Colours { .. } => 12,
            Self::Limits(_) => 13,
            Self::Clues(_) => 14,
            Self::Cells(_) => 15,
            Self::List => 16,
            Self::Counts { .. } => 19,
        }
    }

    /// The refusal of a puzzle by this number.
    pub(crate) fn of_puzzle(number: u8, puzzle: &Puzzle, limits: Limits) -> Self {
        let (width, height) = (puzzle.width(), puzzle.height());
        match number {
            11 => Self::Size { width, height },
            12 => Self::Colours {
                colours: puzzle.colours(),
            },
            13 => Self::Limits(limits),
            14 => Self::Clues(puzzle_fault(puzzle)),
            15 => Self::Cells(cell_fault(puzzle.cells(), width * height, puzzle.colours())),
            _ => Self::List,
        }
    }

    /// The refusal of a line by this number.
    pub(crate) fn of_line(number: u8, colours: usize, clue: &[Block], cells: &[u8]) -> Self {
        match number {
            12 => Self::Colours { colours },
            14 => Self::Clues(ClueFault {
                line: String::new(),
                fault: fault_of(clue, colours).unwrap_or_default(),
            }),
            _ if !(1..=16).contains(&cells.len()) => {
                Self::Cells(CellFault::Line { cells: cells.len() })
            }
            _ => Self::Cells(cell_fault(cells, cells.len(), colours)),
        }
    }
}

/// The first clue with a fault.
fn puzzle_fault(puzzle: &Puzzle) -> ClueFault {
    let rows = puzzle.rows().iter().enumerate();
    let columns = puzzle.columns().iter().enumerate();
    let rows = rows.map(|(at, clue)| (format!("row {at}"), clue));
    let columns = columns.map(|(at, clue)| (format!("column {at}"), clue));
    let mut faults = rows.chain(columns).filter_map(|(line, clue)| {
        let fault = fault_of(clue, puzzle.colours())?;
        Some(ClueFault { line, fault })
    });
    faults.next().unwrap_or(ClueFault {
        line: String::new(),
        fault: String::new(),
    })
}

/// What is wrong with a clue, if anything is.
fn fault_of(clue: &[Block], colours: usize) -> Option<String> {
    if clue.len() > 16 {
        return Some(format!(
            "the clue has {} blocks, and at most 16 are allowed",
            clue.len()
        ));
    }
    clue.iter().enumerate().find_map(|(at, block)| {
        let Block { colour, length } = *block;
        if !(1..=colours).contains(&usize::from(colour)) {
            return Some(format!(
                "block {at} has colour {colour}, and the colours are 1 to {colours}"
            ));
        }
        (!(1..=16).contains(&length))
            .then(|| format!("block {at} is {length} cells long, and 1 to 16 are allowed"))
    })
}

/// What is wrong with the cells: their number, or else the first one without a colour or with one that there is not.
fn cell_fault(cells: &[u8], needed: usize, colours: usize) -> CellFault {
    let wrong = |&set: &u8| set == 0 || usize::from(set) >> (colours + 1) != 0;
    match cells.iter().position(wrong) {
        Some(at) if cells.len() == needed => CellFault::Set { at, set: cells[at] },
        _ => CellFault::Count {
            cells: cells.len(),
            needed,
        },
    }
}

impl fmt::Display for Refusal {
    fn fmt(&self, f: &mut fmt::Formatter<'_>) -> fmt::Result {
        match self {
            Self::Size { width, height } => write!(
                f,
                "the puzzle is {width} cells wide and {height} high; both must be 1 to 16"
            ),
            Self::Colours { colours } => write!(
                f,
                "the puzzle has {colours} colours besides blank; it must have 1 to 3"
            ),
            Self::Limits(limits) => write_limits(f, limits),
            Self::Clues(ClueFault { line, fault }) if line.is_empty() => f.write_str(fault),
            Self::Clues(ClueFault { line, fault }) => write!(f, "{line}: {fault}"),
            Self::Cells(CellFault::Count { cells, needed }) => {
                write!(f, "there are {cells} cells, and {needed} are needed")
            }
            Self::Cells(CellFault::Line { cells }) => {
                write!(f, "the line has {cells} cells; it must have 1 to 16")
            }
            Self::Cells(CellFault::Set { at, set: 0 }) => {
                write!(f, "cell {at} has no colour left, not even blank")
            }
            Self::Cells(CellFault::Set { at, set }) => write!(
                f,
                "cell {at} has the set {set}, with a colour that the puzzle does not have"
            ),
            Self::List => f.write_str("the list has no room for the grids asked for"),
            Self::Counts { max, min } => write!(
                f,
                "no rate for the counts {max} and {min}: the larger must be at most 255 and the smaller no larger than it"
            ),
        }
    }
}

/// The first limit that is too wide.
fn write_limits(f: &mut fmt::Formatter<'_>, limits: &Limits) -> fmt::Result {
    let Limits {
        most_grids,
        most_depth,
        budget,
    } = limits;
    if *most_grids > 128 {
        return write!(
            f,
            "{most_grids} grids are asked for, and at most 128 can be"
        );
    }
    if *most_depth > 15 {
        return write!(
            f,
            "a depth of {most_depth} is asked for, and at most 15 can be"
        );
    }
    write!(
        f,
        "a budget of {budget} steps is asked for, and at most 1000000000 can be"
    )
}

impl error::Error for Refusal {}
