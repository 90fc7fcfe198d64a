//! The rules number for number, on bytes: the library's functions with nothing added.
//!
//! A cell is a set of colours, bit 0 for blank and bit c for colour c. Cells stand row by row. The clues are those of the rows from the top,
//! then those of the columns from the left; each is one count, then for each block its colour and its length. Blocks of different colours may touch;
//! neighbouring blocks of the same colour have a blank between them.
//!
//! What is wrong with an input is told by the number; the lowest that applies is given.
//!
//! | No. | Meaning | Left behind |
//! |---|---|---|
//! | 1 | solved, or the line is reduced | the board or the line |
//! | 2 | listed | board: what is known; the list's first bytes: the grids |
//! | 3 | dead end, or no line fits | everything untouched |
//! | 11 | w or h outside 1..16 | untouched |
//! | 12 | k outside 1..3 | untouched |
//! | 13 | most grids > 128, most depth > 15 or budget > 1,000,000,000 | untouched |
//! | 14 | clue bytes break the layout | untouched |
//! | 15 | cell count wrong, a cell 0, or a bit above k | untouched |
//! | 16 | list shorter than most grids·w·h | untouched |
//! | 19 | rate asked with max > 255 or min > max | rate 0.0 |
//! | 20 | no grid of that number | empty part |

/// What a search gives back beside the bytes that it writes.
#[derive(Clone, Copy, Debug, Default, PartialEq, Eq)]
pub struct Answer {
    /// 1 solved, 2 listed, 3 dead end, or the number of a refusal.
    pub number: u8,
    /// The grids stored.
    pub grids: usize,
    /// The steps taken: colours assumed in probing, and guesses.
    pub steps: u64,
    /// The deepest depth, counted from 1; 0 if no node was entered: the search was not begun, or a limit was met at once.
    pub deepest: usize,
    /// The limit met first: 0 none, 1 grids, 2 steps, 3 depth.
    pub limit: u8,
}

/// The functions that `c/belutharin.h` declares.
mod library {
    extern "C" {
        pub fn belutharin_solve(
            w: usize,
            h: usize,
            k: usize,
            clues: *const u8,
            clues_length: usize,
            cells: *mut u8,
            cells_length: usize,
            list: *mut u8,
            list_length: usize,
            most_grids: usize,
            most_depth: usize,
            budget: u64,
            grids: *mut usize,
            steps: *mut u64,
            deepest: *mut usize,
            limit: *mut u8,
        ) -> u8;

        pub fn belutharin_reduce_line(
            k: usize,
            clue: *const u8,
            clue_length: usize,
            cells: *mut u8,
            cells_length: usize,
        ) -> u8;

        pub fn belutharin_rate(max: u64, min: u64, rate: *mut f64) -> u8;

        pub fn belutharin_grid(
            list: *const u8,
            list_length: usize,
            w: usize,
            h: usize,
            n: usize,
            i: usize,
            start: *mut usize,
            size: *mut usize,
        ) -> u8;
    }
}

/// Searches for the grids of a puzzle.
///
/// After 1 the board is the grid. After 2 it has what was deduced at depth 0, before the first guess and from dead guesses there, and the list begins with the stored grids.
/// All other bytes are untouched, and so are all bytes after any other number.
///
/// ```
/// use belutharin::raw;
///
/// // Twin: two by two cells, one block of one cell in each line.
/// let clues = [1, 1, 1, 1, 1, 1, 1, 1, 1, 1, 1, 1];
/// let (mut cells, mut list) = ([3; 4], [0; 16]);
/// let answer = raw::solve(2, 2, 1, &clues, &mut cells, &mut list, 4, 15, 100);
/// assert_eq!(answer, raw::Answer { number: 2, grids: 2, steps: 8, deepest: 1, limit: 0 });
/// assert_eq!(list[..8], [1, 2, 2, 1, 2, 1, 1, 2]);
/// ```
#[allow(clippy::too_many_arguments)]
pub fn solve(
    w: usize,
    h: usize,
    k: usize,
    clues: &[u8],
    cells: &mut [u8],
    list: &mut [u8],
    most_grids: usize,
    most_depth: usize,
    budget: u64,
) -> Answer {
    let mut answer = Answer::default();
    // SAFETY: each pointer comes from a reference, with the length of its slice, and what may be written is lent to this call alone.
    answer.number = unsafe {
        library::belutharin_solve(
            w,
            h,
            k,
            clues.as_ptr(),
            clues.len(),
            cells.as_mut_ptr(),
            cells.len(),
            list.as_mut_ptr(),
            list.len(),
            most_grids,
            most_depth,
            budget,
            &mut answer.grids,
            &mut answer.steps,
            &mut answer.deepest,
            &mut answer.limit,
        )
    };
    answer
}

/// Reduces one line: 1 and the reduced sets; 3 where no line fits; 12, 14 or 15. After all but 1 the cells are untouched.
///
/// ```
/// let mut cells = [3; 5];
/// assert_eq!(belutharin::raw::reduce_line(1, &[1, 1, 3], &mut cells), 1);
/// assert_eq!(cells, [3, 3, 2, 3, 3]);
/// ```
pub fn reduce_line(k: usize, clue: &[u8], cells: &mut [u8]) -> u8 {
    // SAFETY: each pointer comes from a reference, with the length of its slice, and the cells are lent to this call alone.
    unsafe {
        library::belutharin_reduce_line(
            k,
            clue.as_ptr(),
            clue.len(),
            cells.as_mut_ptr(),
            cells.len(),
        )
    }
}

/// The rate sqrt(max/(min+1)) + min, with 0; or 19 and 0.0.
///
/// ```
/// assert_eq!(belutharin::raw::rate(9, 3), (0, 4.5));
/// assert_eq!(belutharin::raw::rate(256, 0), (19, 0.0));
/// ```
pub fn rate(max: u64, min: u64) -> (u8, f64) {
    let mut rate = 0.0;
    // SAFETY: the pointer comes from a reference that is lent to this call alone.
    let number = unsafe { library::belutharin_rate(max, min, &mut rate) };
    (number, rate)
}

/// Grid number i of n in a list, with 0; or an empty part with 11, 16 or 20.
///
/// ```
/// let list = [1, 2, 2, 1, 2, 1, 1, 2];
/// assert_eq!(belutharin::raw::grid(&list, 2, 2, 2, 1), (0, &[2, 1, 1, 2][..]));
/// assert_eq!(belutharin::raw::grid(&list, 2, 2, 2, 2), (20, &[][..]));
/// ```
pub fn grid(list: &[u8], w: usize, h: usize, n: usize, i: usize) -> (u8, &[u8]) {
    let (mut start, mut size) = (0, 0);
    // SAFETY: each pointer comes from a reference, the list's with its length, and what may be written is lent to this call alone.
    let number = unsafe {
        library::belutharin_grid(list.as_ptr(), list.len(), w, h, n, i, &mut start, &mut size)
    };
    (number, &list[start..start + size])
}
