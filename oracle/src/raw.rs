//! The numbers of docs/RULES.md over bytes: what is refused, reducing one line, the rate, and handing out a grid.

use crate::{
    block::{Cell, ColouredBlock},
    board::{Board, LONGEST_LINE},
    solver::{
        line::{LineSolver, Placing},
        probing::{FullProbe1, ProbeSolver},
        unmended,
    },
    utils::rc::MutRc,
};

const MOST_COLOURS: usize = 3;
const MOST_GRIDS: usize = 128;
const MOST_DEPTH: usize = 15;
const MOST_STEPS: u64 = 1_000_000_000;
const MOST_SOLVED: u64 = 255;

/// What a search gives back beside the bytes that it writes.
#[derive(Clone, Copy, Debug, Default, PartialEq, Eq)]
pub struct Answer {
    pub number: u8,
    pub grids: usize,
    pub steps: u64,
    pub deepest: usize,
    pub limit: u8,
    /// The mends that acted, bit 0 for M1 up to bit 3 for M4; always 0 without the mends.
    pub mends: u8,
}

impl Answer {
    pub(crate) fn refused(number: u8) -> Self {
        Self {
            number,
            ..Self::default()
        }
    }
}

/// The lowest number that refuses this input to the search, if any does.
#[allow(clippy::too_many_arguments)]
pub(crate) fn refusal(
    w: usize,
    h: usize,
    k: usize,
    clues: &[u8],
    cells: &[u8],
    list: &[u8],
    most_grids: usize,
    most_depth: usize,
    budget: u64,
) -> Option<u8> {
    if !is_size(w) || !is_size(h) {
        return Some(11);
    }
    if !is_colours(k) {
        return Some(12);
    }
    if most_grids > MOST_GRIDS || most_depth > MOST_DEPTH || budget > MOST_STEPS {
        return Some(13);
    }
    if !keeps_layout(clues, w, h, k) {
        return Some(14);
    }
    if cells.len() != w * h || !are_cells(cells, k) {
        return Some(15);
    }
    if list.len() < most_grids * w * h {
        return Some(16);
    }
    None
}

fn is_size(cells: usize) -> bool {
    (1..=LONGEST_LINE).contains(&cells)
}

fn is_colours(k: usize) -> bool {
    (1..=MOST_COLOURS).contains(&k)
}

fn are_cells(cells: &[u8], k: usize) -> bool {
    cells.iter().all(|&cell| cell != 0 && cell >> (k + 1) == 0)
}

/// Whether the bytes are the clues of a board of this size and nothing else.
pub(crate) fn keeps_layout(clues: &[u8], w: usize, h: usize, k: usize) -> bool {
    is_size(w) && is_size(h) && after_clues(clues, w + h, k) == Some(&[])
}

/// What follows this many clues, if they keep the layout.
fn after_clues(bytes: &[u8], lines: usize, k: usize) -> Option<&[u8]> {
    (0..lines).try_fold(bytes, |rest, _| {
        let (&count, rest) = rest.split_first()?;
        let (pairs, rest) = rest.split_at_checked(2 * usize::from(count))?;
        let fits =
            |pair: &[u8]| (1..=k).contains(&usize::from(pair[0])) && is_size(usize::from(pair[1]));
        (usize::from(count) <= LONGEST_LINE && pairs.chunks_exact(2).all(fits)).then_some(rest)
    })
}

/// The clues that these bytes lay out.
pub(crate) fn clues_of(mut bytes: &[u8]) -> Vec<Vec<ColouredBlock>> {
    let mut clues = Vec::new();
    while let Some((&count, rest)) = bytes.split_first() {
        let (pairs, rest) = rest.split_at(2 * usize::from(count));
        let block = |pair: &[u8]| ColouredBlock {
            colour: pair[0],
            length: pair[1],
        };
        clues.push(pairs.chunks_exact(2).map(block).collect());
        bytes = rest;
    }
    clues
}

/// Reduces one line: 1 reduced, 3 contradiction, or 12, 14, 15.
pub fn reduce_line(k: usize, clue: &[u8], cells: &mut [u8]) -> u8 {
    reduce_line_by::<Placing>(k, clue, cells)
}

/// The same by any line solver of the stand-in.
pub(crate) fn reduce_line_by<S: LineSolver<BlockType = ColouredBlock>>(
    k: usize,
    clue: &[u8],
    cells: &mut [u8],
) -> u8 {
    if !is_colours(k) {
        return 12;
    }
    if after_clues(clue, 1, k) != Some(&[]) {
        return 14;
    }
    if !is_size(cells.len()) || !are_cells(cells, k) {
        return 15;
    }
    let mut line: Vec<_> = cells.iter().copied().map(Cell).collect();
    if S::reduce(&clues_of(clue)[0], &mut line).is_err() {
        return 3;
    }
    for (byte, cell) in cells.iter_mut().zip(line) {
        *byte = cell.0;
    }
    1
}

/// The rate of a cell whose colours newly solve at most `max` and at least `min` cells, with 0; or 19 and 0.0.
pub fn rate(max: u64, min: u64) -> (u8, f64) {
    if max > MOST_SOLVED || min > max {
        return (19, 0.0);
    }
    (0, unmended::rate(max as usize, min as usize))
}

/// Grid number i of n in a list, with 0; or an empty part with 11, 16 or 20.
pub fn grid(list: &[u8], w: usize, h: usize, n: usize, i: usize) -> (u8, &[u8]) {
    if !is_size(w) || !is_size(h) {
        return (11, &[]);
    }
    let size = w * h;
    if list.len() / size < n {
        return (16, &[]);
    }
    if i >= n {
        return (20, &[]);
    }
    (0, &list[i * size..(i + 1) * size])
}

/// The published starting queue of a board: cells in the order in which they are popped, with their priorities.
pub fn starting_queue(w: usize, h: usize, cells: &[u8]) -> Vec<(usize, f64)> {
    let clues = vec![Vec::new(); w + h];
    let cells = cells.iter().copied().map(Cell).collect();
    let board = MutRc::new(Board::<ColouredBlock>::new(w, h, clues, cells));
    let mut queue = FullProbe1::with_board(board).unsolved_cells();
    core::iter::from_fn(|| queue.pop())
        .map(|(point, priority)| (point.y * w + point.x, priority.0 .0))
        .collect()
}
