//! The worked grids of docs/RULES.md, under its numbers, run by the mended search.

use oracle::{
    mended,
    puzzle::{Clue, Outcome, Puzzle},
    raw,
};

fn reduced(k: usize, clue: &[u8], cells: &[u8]) -> (u8, Vec<u8>) {
    let mut cells = cells.to_vec();
    let number = raw::reduce_line(k, clue, &mut cells);
    (number, cells)
}

#[test]
fn grids_1_to_5_one_line() {
    assert_eq!(reduced(1, &[1, 1, 3], &[3; 5]), (1, vec![3, 3, 2, 3, 3]));
    assert_eq!(reduced(1, &[2, 1, 1, 1, 1], &[3; 3]), (1, vec![2, 1, 2]));
    assert_eq!(reduced(1, &[0], &[3; 3]), (1, vec![1, 1, 1]));
    assert_eq!(reduced(1, &[1, 1, 2], &[3]), (3, vec![3]));
    assert_eq!(reduced(2, &[2, 1, 1, 2, 1], &[7; 2]), (1, vec![2, 4]));
}

#[test]
fn grids_6_and_7_rates() {
    assert_eq!(raw::rate(4, 0), (0, 2.0));
    assert_eq!(raw::rate(9, 3), (0, 4.5));
    assert_eq!(raw::rate(0, 0), (0, 0.0));
    assert_eq!(raw::rate(255, 254), (0, 255.0));
    assert_eq!(raw::rate(256, 0), (19, 0.0));
}

#[test]
fn grid_8_priorities() {
    let open = raw::starting_queue(2, 2, &[3, 3, 3, 3]);
    assert_eq!(open, [(0, 2.0), (1, 2.0), (2, 2.0), (3, 2.0)]);
    let one_solved = raw::starting_queue(2, 2, &[1, 3, 3, 3]);
    assert!(one_solved.contains(&(1, 3.5)));
}

fn one_cell(row: Clue, column: Clue, cell: u8) -> Outcome {
    let puzzle = Puzzle::new(1, 1, 1, &[row, column], vec![cell]);
    puzzle.with_limits(1, 15, 100).run(mended::solve)
}

#[test]
fn grids_9_to_11_one_cell() {
    let solved = one_cell(vec![], vec![], 3);
    assert_eq!((solved.answer.number, solved.cells), (1, vec![1]));
    let dead = one_cell(vec![(1, 1)], vec![], 3);
    assert_eq!((dead.answer.number, dead.cells), (3, vec![3]));
    let wrong = one_cell(vec![], vec![], 2);
    assert_eq!((wrong.answer.number, wrong.cells), (3, vec![2]));
}

/// Runs Twin: answer, grids, steps, deepest, limit, and the grids.
fn twin(most_grids: usize, most_depth: usize, budget: u64) -> ([u64; 5], Vec<u8>) {
    let puzzle = Puzzle::new(2, 2, 1, &vec![vec![(1, 1)]; 4], vec![3; 4]);
    let limited = puzzle.with_limits(most_grids, most_depth, budget);
    let outcome = limited.run(mended::solve);
    assert_eq!(outcome.cells, [3; 4]);
    let answer = outcome.answer;
    let numbers = [
        answer.number.into(),
        answer.grids as u64,
        answer.steps,
        answer.deepest as u64,
        answer.limit.into(),
    ];
    (numbers, outcome.grids().concat())
}

#[test]
fn grid_12_twin() {
    let both = vec![1, 2, 2, 1, 2, 1, 1, 2];
    assert_eq!(twin(4, 15, 100), ([2, 2, 8, 1, 0], both));
}

#[test]
fn grid_13_twin_with_few_grids() {
    let both = vec![1, 2, 2, 1, 2, 1, 1, 2];
    assert_eq!(twin(2, 15, 100), ([2, 2, 2, 1, 1], both));
    assert_eq!(twin(0, 15, 100), ([2, 0, 0, 0, 1], vec![]));
}

#[test]
fn grid_14_twin_with_little_depth_or_budget() {
    let both = vec![1, 2, 2, 1, 2, 1, 1, 2];
    assert_eq!(twin(4, 0, 100), ([2, 2, 8, 1, 3], both));
    assert_eq!(twin(4, 15, 1), ([2, 1, 1, 1, 2], vec![1, 2, 2, 1]));
    assert_eq!(twin(4, 15, 0), ([2, 0, 0, 0, 2], vec![]));
}

#[test]
fn grid_15_the_widest_inputs() {
    let row = |w: usize| Puzzle::new(w, 1, 1, &vec![vec![]; w + 1], vec![3; w]);
    let number = |puzzle: Puzzle| puzzle.run(mended::solve).answer.number;
    assert_eq!(number(row(16).with_limits(1, 15, 100)), 1);
    assert_eq!(number(row(17).with_limits(1, 15, 100)), 11);
    assert_eq!(number(row(2).with_limits(1, 15, 1_000_000_000)), 1);
    assert_eq!(number(row(2).with_limits(1, 15, 1_000_000_001)), 13);
}
