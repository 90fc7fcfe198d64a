//! Smaller puzzles of the same kind, to find the smallest on which two runs differ.

use oracle::puzzle::{Clue, Puzzle};

/// The smallest puzzle that these steps find and that still differs: lines left out, blocks left out, cells opened, limits lowered.
pub fn smallest(puzzle: &Puzzle, differs: impl Fn(&Puzzle) -> bool) -> Puzzle {
    let mut found = puzzle.clone();
    while let Some(next) = smaller(&found).into_iter().find(|puzzle| differs(puzzle)) {
        found = next;
    }
    found
}

/// How large a puzzle is to a reader.
pub fn size(puzzle: &Puzzle) -> (usize, usize, usize, u64) {
    (
        puzzle.cells.len(),
        puzzle.clues.len(),
        puzzle.most_grids + puzzle.most_depth,
        puzzle.budget,
    )
}

/// The puzzles that are one step smaller. One that is refused is left as it is.
fn smaller(puzzle: &Puzzle) -> Vec<Puzzle> {
    let Puzzle { w, h, k, .. } = *puzzle;
    let accepted = (1..=16).contains(&w) && (1..=16).contains(&h) && puzzle.cells.len() == w * h;
    let clues = clue_list(&puzzle.clues);
    let Some(clues) = clues.filter(|clues| accepted && clues.len() == w + h) else {
        return Vec::new();
    };
    let mut found = Vec::new();
    for row in (0..h).filter(|_| h > 1) {
        let cells = kept(&puzzle.cells, |at| at / w != row);
        found.push(redrawn(puzzle, w, h - 1, without(&clues, row), cells));
    }
    for column in (0..w).filter(|_| w > 1) {
        let cells = kept(&puzzle.cells, |at| at % w != column);
        found.push(redrawn(
            puzzle,
            w - 1,
            h,
            without(&clues, h + column),
            cells,
        ));
    }
    for line in 0..clues.len() {
        for block in 0..clues[line].len() {
            let mut fewer = clues.clone();
            fewer[line].remove(block);
            found.push(redrawn(puzzle, w, h, fewer, puzzle.cells.clone()));
        }
    }
    let open = ((1_u32 << (k.min(3) + 1)) - 1) as u8;
    for at in (0..w * h).filter(|&at| puzzle.cells[at] != open) {
        let mut cells = puzzle.cells.clone();
        cells[at] = open;
        found.push(redrawn(puzzle, w, h, clues.clone(), cells));
    }
    for budget in [puzzle.budget / 2, puzzle.budget.saturating_sub(1)] {
        found.push(Puzzle {
            budget,
            ..puzzle.clone()
        });
    }
    for most_grids in [puzzle.most_grids / 2, puzzle.most_grids.saturating_sub(1)] {
        found.push(Puzzle {
            most_grids,
            lent: most_grids * w * h,
            ..puzzle.clone()
        });
    }
    found.push(Puzzle {
        most_depth: puzzle.most_depth.saturating_sub(1),
        ..puzzle.clone()
    });
    found.retain(|smaller| size(smaller) < size(puzzle) || smaller.cells != puzzle.cells);
    found
}

/// The clues that the bytes lay out, if they lay out any.
fn clue_list(mut bytes: &[u8]) -> Option<Vec<Clue>> {
    let mut clues = Vec::new();
    while let Some((&count, rest)) = bytes.split_first() {
        let (pairs, rest) = rest.split_at_checked(2 * usize::from(count))?;
        clues.push(
            pairs
                .chunks_exact(2)
                .map(|pair| (pair[0], pair[1]))
                .collect(),
        );
        bytes = rest;
    }
    Some(clues)
}

fn without(clues: &[Clue], line: usize) -> Vec<Clue> {
    let mut fewer = clues.to_vec();
    fewer.remove(line);
    fewer
}

fn kept(cells: &[u8], keep: impl Fn(usize) -> bool) -> Vec<u8> {
    let cells = cells.iter().enumerate().filter(|&(at, _)| keep(at));
    cells.map(|(_, &cell)| cell).collect()
}

/// The puzzle with this size and these clues and cells, and a list that is exactly long enough.
fn redrawn(puzzle: &Puzzle, w: usize, h: usize, clues: Vec<Clue>, cells: Vec<u8>) -> Puzzle {
    Puzzle::new(w, h, puzzle.k, &clues, cells).with_limits(
        puzzle.most_grids,
        puzzle.most_depth,
        puzzle.budget,
    )
}
