//! The worked grids of docs/RULES.md.

use belutharin::raw::{self, Answer};

/// What lent bytes hold before a run: no cell has this value.
const UNTOUCHED: u8 = 165;

const TWIN: [u8; 12] = [1; 12];

/// Twin with these limits, in a list of sixteen bytes: the answer and the bytes written.
fn twin(most_grids: usize, most_depth: usize, budget: u64) -> (Answer, Vec<u8>) {
    let (mut cells, mut list) = ([3; 4], [UNTOUCHED; 16]);
    let answer = raw::solve(
        2, 2, 1, &TWIN, &mut cells, &mut list, most_grids, most_depth, budget,
    );
    assert_eq!(cells, [3; 4]);
    let written = list.iter().take_while(|&&byte| byte != UNTOUCHED).count();
    assert!(list[written..].iter().all(|&byte| byte == UNTOUCHED));
    (answer, list[..written].to_vec())
}

fn answer(number: u8, grids: usize, steps: u64, deepest: usize, limit: u8) -> Answer {
    Answer {
        number,
        grids,
        steps,
        deepest,
        limit,
    }
}

fn reduced(k: usize, clue: &[u8], cells: &[u8]) -> (u8, Vec<u8>) {
    let mut after = cells.to_vec();
    (raw::reduce_line(k, clue, &mut after), after)
}

#[test]
fn lines() {
    assert_eq!(reduced(1, &[1, 1, 3], &[3; 5]), (1, vec![3, 3, 2, 3, 3]));
    assert_eq!(reduced(1, &[2, 1, 1, 1, 1], &[3; 3]), (1, vec![2, 1, 2]));
    assert_eq!(reduced(1, &[0], &[3; 3]), (1, vec![1, 1, 1]));
    assert_eq!(reduced(1, &[1, 1, 2], &[3]), (3, vec![3]));
    assert_eq!(reduced(2, &[2, 1, 1, 2, 1], &[7; 2]), (1, vec![2, 4]));
}

#[test]
fn rates() {
    assert_eq!(raw::rate(4, 0), (0, 2.0));
    assert_eq!(raw::rate(9, 3), (0, 4.5));
    assert_eq!(raw::rate(0, 0), (0, 0.0));
    assert_eq!(raw::rate(255, 254), (0, 255.0));
    assert_eq!(raw::rate(256, 0), (19, 0.0));
}

#[test]
fn boards_of_one_cell() {
    let run = |clues: &[u8], cell: u8| {
        let (mut cells, mut list) = ([cell], [UNTOUCHED]);
        let answer = raw::solve(1, 1, 1, clues, &mut cells, &mut list, 1, 15, 100);
        assert_eq!(list, [UNTOUCHED]);
        (answer, cells[0])
    };
    assert_eq!(run(&[0, 0], 3), (answer(1, 0, 0, 0, 0), 1));
    assert_eq!(run(&[1, 1, 1, 0], 3), (answer(3, 0, 0, 0, 0), 3));
    assert_eq!(run(&[0, 0], 2), (answer(3, 0, 0, 0, 0), 2));
}

#[test]
fn twin_and_its_limits() {
    let (first, both) = (vec![1, 2, 2, 1], vec![1, 2, 2, 1, 2, 1, 1, 2]);
    assert_eq!(twin(4, 15, 100), (answer(2, 2, 8, 1, 0), both.clone()));
    assert_eq!(twin(2, 15, 100), (answer(2, 2, 2, 1, 1), both.clone()));
    assert_eq!(twin(0, 15, 100), (answer(2, 0, 0, 0, 1), vec![]));
    assert_eq!(twin(4, 0, 100), (answer(2, 2, 8, 1, 3), both));
    assert_eq!(twin(4, 15, 1), (answer(2, 1, 1, 1, 2), first));
    assert_eq!(twin(4, 15, 0), (answer(2, 0, 0, 0, 2), vec![]));
}

#[test]
fn the_largest_numbers_accepted() {
    let run = |w: usize, budget| {
        let clues = vec![0; w + 1];
        raw::solve(w, 1, 1, &clues, &mut vec![3; w], &mut [], 0, 15, budget).number
    };
    assert_eq!(run(16, 1_000_000_000), 1);
    assert_eq!(run(17, 1_000_000_000), 11);
    assert_eq!(run(16, 1_000_000_001), 13);
}
