//! The library's functions in the oracle's form, with bytes around all that is lent.

use oracle::{
    puzzle::{Outcome, Puzzle, UNTOUCHED},
    raw::Answer,
};

/// So many bytes stand before and after what is lent, and must stay as they are.
const AROUND: usize = 64;

/// The byte that stands around what is lent: no cell has this value.
const WALL: u8 = 90;

/// Bytes with a wall around them.
struct Walled(Vec<u8>);

impl Walled {
    fn new(bytes: &[u8]) -> Self {
        let wall = [WALL; AROUND];
        Self([&wall[..], bytes, &wall[..]].concat())
    }

    fn inside(&mut self) -> &mut [u8] {
        let end = self.0.len() - AROUND;
        &mut self.0[AROUND..end]
    }

    /// The bytes, if the wall stands.
    fn open(mut self, name: &str) -> Result<Vec<u8>, String> {
        let end = self.0.len() - AROUND;
        let walls = self.0[..AROUND].iter().chain(&self.0[end..]);
        if walls.copied().any(|byte| byte != WALL) {
            return Err(format!("a byte beside the {name} was written"));
        }
        self.0.truncate(end);
        Ok(self.0.split_off(AROUND))
    }
}

/// The library's search, in the form of the oracle's.
#[allow(clippy::too_many_arguments)]
pub fn solve(
    w: usize,
    h: usize,
    k: usize,
    clues: &[u8],
    cells: &mut [u8],
    list: &mut [u8],
    most_grids: usize,
    most_depth: usize,
    budget: u64,
) -> Answer {
    let answer =
        belutharin::raw::solve(w, h, k, clues, cells, list, most_grids, most_depth, budget);
    Answer {
        number: answer.number,
        grids: answer.grids,
        steps: answer.steps,
        deepest: answer.deepest,
        limit: answer.limit,
        mends: 0,
    }
}

/// Runs the puzzle by the library. An error says which byte was written that was not lent to be.
pub fn run(puzzle: &Puzzle) -> Result<Outcome, String> {
    let mut clues = Walled::new(&puzzle.clues);
    let mut cells = Walled::new(&puzzle.cells);
    let mut list = Walled::new(&vec![UNTOUCHED; puzzle.lent]);
    let answer = solve(
        puzzle.w,
        puzzle.h,
        puzzle.k,
        clues.inside(),
        cells.inside(),
        list.inside(),
        puzzle.most_grids,
        puzzle.most_depth,
        puzzle.budget,
    );
    if clues.open("clues")? != puzzle.clues {
        return Err("a clue byte was written".to_string());
    }
    Ok(Outcome {
        answer,
        cells: cells.open("cells")?,
        list: list.open("list")?,
    })
}

/// Reduces the line by the library: the number, and the cells afterwards.
pub fn reduce_line(k: usize, clue: &[u8], cells: &[u8]) -> Result<(u8, Vec<u8>), String> {
    let mut lent_clue = Walled::new(clue);
    let mut lent_cells = Walled::new(cells);
    let number = belutharin::raw::reduce_line(k, lent_clue.inside(), lent_cells.inside());
    if lent_clue.open("clue")? != clue {
        return Err("a clue byte was written".to_string());
    }
    Ok((number, lent_cells.open("cells")?))
}
