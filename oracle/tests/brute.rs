//! The mended search against all fitting grids, found by trying every colour of every cell in turn. A grid fits if each of its
//! lines shows its clue: the stretches of equal colours other than blank are, in order, the clue's blocks.

use oracle::{
    generate::{any_kind, edited, misread, searching, sparse, Kind, Random},
    mended,
    puzzle::{Clue, Puzzle},
};

/// All fitting grids of a small puzzle, ascending.
fn fitting(puzzle: &Puzzle) -> Vec<Vec<u8>> {
    let mut grids = Vec::new();
    extend(puzzle, &puzzle.clue_list(), &mut Vec::new(), &mut grids);
    grids.sort();
    grids
}

/// Adds the grids that begin with these cells.
fn extend(puzzle: &Puzzle, clues: &[Clue], cells: &mut Vec<u8>, grids: &mut Vec<Vec<u8>>) {
    let Puzzle { w, h, k, .. } = *puzzle;
    let at = cells.len();
    if at > 0 {
        let (x, y) = ((at - 1) % w, (at - 1) / w);
        let column: Vec<u8> = cells[x..].iter().step_by(w).copied().collect();
        if !shows(&cells[y * w..], w, &clues[y]) || !shows(&column, h, &clues[h + x]) {
            return;
        }
    }
    if at == w * h {
        grids.push(cells.clone());
        return;
    }
    for colour in (0..=k).filter(|colour| puzzle.cells[at] >> colour & 1 == 1) {
        cells.push(1 << colour);
        extend(puzzle, clues, cells, grids);
        cells.pop();
    }
}

/// Whether a whole line, of single colours, shows its clue; of the beginning of a line, whether it may still come to that.
fn shows(line: &[u8], length: usize, clue: &[(u8, u8)]) -> bool {
    let mut shown: Clue = line
        .chunk_by(|a, b| a == b)
        .filter(|stretch| stretch[0] != 1)
        .map(|stretch| (stretch[0].trailing_zeros() as u8, stretch.len() as u8))
        .collect();
    if line.len() == length {
        return shown == clue;
    }
    let growing = line.last().is_some_and(|&last| last != 1);
    if growing {
        // The last stretch may still grow into its block.
        let (colour, cells) = shown.pop().expect("a stretch ends the line");
        let block = clue.get(shown.len());
        if !block.is_some_and(|block| block.0 == colour && block.1 >= cells) {
            return false;
        }
    }
    clue.starts_with(&shown)
}

/// Compares one puzzle; tells whether its search ended without a limit.
fn compare(puzzle: &Puzzle) -> bool {
    let all = fitting(puzzle);
    let outcome = puzzle.run(mended::solve);
    let mut listed: Vec<_> = outcome.grids().iter().map(|grid| grid.to_vec()).collect();
    listed.sort();
    match (outcome.answer.number, outcome.answer.limit) {
        (1, _) => assert_eq!(all.concat(), outcome.cells, "{puzzle}"),
        (2, 0) => assert_eq!(listed, all, "{puzzle}"),
        (2, _) => assert!(listed.iter().all(|grid| all.contains(grid)), "{puzzle}"),
        _ => assert!(all.is_empty(), "{puzzle}"),
    }
    outcome.searched() && outcome.answer.limit == 0
}

/// Compares puzzles of every kind up to this size; gives how many searches ended without a limit.
fn compare_many(seed: u64, count: usize, tries: usize, longest: usize) -> usize {
    let mut random = Random::new(seed);
    let mut ended = 0;
    for _ in 0..count {
        let kind = random.pick::<Kind>(&[any_kind, sparse, edited, misread]);
        let puzzle = searching(&mut random, kind, tries, |random| {
            (
                random.between(1, longest),
                random.between(1, longest),
                random.between(1, 3),
            )
        });
        ended += usize::from(compare(&puzzle));
    }
    ended
}

#[test]
fn boards_of_every_kind() {
    compare_many(5, 10_000, 1, 4);
}

#[test]
fn boards_that_reach_the_search() {
    let ended = compare_many(6, 2_000, 50, 5);
    assert!(ended > 1_000, "{ended}");
}
