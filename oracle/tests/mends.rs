//! The inputs that the page on differences shows, one or two for each mend, run as published and mended.

use oracle::{
    mended,
    puzzle::{Clue, Outcome, Puzzle},
    unmended,
};

/// Runs both builds; only these mends may act.
fn both(puzzle: &Puzzle, mends: u8) -> (Outcome, Outcome) {
    let mended = puzzle.run(mended::solve);
    assert_eq!(mended.answer.mends, mends);
    (puzzle.run(unmended::solve), mended)
}

/// A puzzle in one colour, its clues as lengths.
fn puzzle(rows: &[&[u8]], columns: &[&[u8]], cells: Vec<u8>) -> Puzzle {
    let clue = |lengths: &&[u8]| -> Clue { lengths.iter().map(|&length| (1, length)).collect() };
    let clues: Vec<Clue> = rows.iter().chain(columns).map(clue).collect();
    Puzzle::new(columns.len(), rows.len(), 1, &clues, cells).with_limits(128, 15, 400)
}

#[test]
fn m1_a_solved_board_is_not_trusted() {
    let wrong = puzzle(&[&[]], &[&[]], vec![2]);
    let (published, mended) = both(&wrong, 0b0001);
    assert_eq!((published.answer.number, published.cells), (1, vec![2]));
    assert_eq!((mended.answer.number, mended.cells), (3, vec![2]));
}

#[test]
fn m1_a_grid_that_does_not_fit_is_not_listed() {
    let misread = puzzle(&[&[1], &[1], &[1]], &[&[1], &[1]], vec![3, 3, 3, 3, 1, 1]);
    let (published, mended) = both(&misread, 0b1001);
    assert_eq!(published.grids(), [[1, 2, 2, 1, 1, 1], [2, 1, 1, 2, 1, 1]]);
    assert_eq!((mended.answer.number, mended.answer.grids), (3, 0));
    assert_eq!(mended.cells, misread.cells);
}

#[test]
fn m2_a_board_solved_by_probing_is_stored() {
    let rows: [&[u8]; 9] = [&[1], &[1], &[1], &[1], &[1], &[1], &[1], &[], &[1]];
    let tall = puzzle(&rows, &[&[1, 2, 1], &[2, 1, 1]], vec![3; 18]);
    let (published, mended) = both(&tall, 0b0010);
    let first = [2, 1, 1, 2, 1, 2, 2, 1, 2, 1, 1, 2, 2, 1, 1, 1, 1, 2];
    let second = [1, 2, 1, 2, 2, 1, 1, 2, 2, 1, 2, 1, 1, 2, 1, 1, 2, 1];
    assert_eq!(published.grids(), [first]);
    assert_eq!(mended.grids(), [first, second]);
    assert_eq!((published.answer.limit, mended.answer.limit), (0, 0));
}

#[test]
fn m3_a_search_does_not_end_for_want_of_guesses() {
    let rows: [&[u8]; 5] = [&[1], &[1], &[], &[], &[]];
    let cells = vec![3, 3, 3, 3, 1, 1, 3, 3, 3, 3];
    let (published, mended) = both(&puzzle(&rows, &[&[1], &[1]], cells), 0b0100);
    assert_eq!((published.answer.number, published.answer.steps), (2, 0));
    assert!(published.grids().is_empty());
    let first = [1, 2, 2, 1, 1, 1, 1, 1, 1, 1];
    let second = [2, 1, 1, 2, 1, 1, 1, 1, 1, 1];
    assert_eq!(mended.grids(), [first, second]);
    assert_eq!(mended.answer.steps, 2);
}

#[test]
fn m4_a_dead_end_leaves_the_board() {
    let (published, mended) = both(&puzzle(&[&[1]], &[&[]], vec![3]), 0b1000);
    assert_eq!((published.answer.number, published.cells), (3, vec![2]));
    assert_eq!((mended.answer.number, mended.cells), (3, vec![3]));
}
