//! The puzzle of the page on differences that tells the two meanings of a clue apart, and how often generated puzzles do.

use oracle::{
    apart,
    generate::{any_limits, Random},
    mended,
    puzzle::Puzzle,
};

#[test]
fn a_grid_more_where_colours_may_touch() {
    let clues = [
        vec![(1, 1)],
        vec![(1, 1), (2, 1)],
        vec![(1, 1)],
        vec![(1, 1)],
        vec![(2, 1)],
    ];
    let puzzle = Puzzle::new(3, 2, 2, &clues, vec![7; 6]).with_limits(128, 15, 1_000);
    let touching = puzzle.run(mended::solve);
    assert_eq!((touching.answer.number, touching.answer.limit), (2, 0));
    assert_eq!(touching.grids(), [[2, 1, 1, 1, 2, 4], [1, 2, 1, 2, 1, 4]]);
    let parted = apart::run(&puzzle);
    assert_eq!(
        (parted.answer.number, parted.cells),
        (1, vec![1, 2, 1, 2, 1, 4])
    );
}

#[test]
fn no_grid_where_colours_may_not_touch() {
    let clues = [vec![(1, 1), (2, 1)], vec![(1, 1)], vec![(2, 1)]];
    let puzzle = Puzzle::new(2, 1, 2, &clues, vec![7; 2]).with_limits(128, 15, 1_000);
    let touching = puzzle.run(mended::solve);
    assert_eq!((touching.answer.number, touching.cells), (1, vec![2, 4]));
    assert_eq!(apart::run(&puzzle).answer.number, 3);
}

#[test]
fn the_meaning_matters_in_every_third_coloured_puzzle() {
    let mut random = Random::new(7);
    let (mut coloured, mut other) = (0, 0);
    for _ in 0..3_000 {
        let puzzle = any_limits(&mut random, 6);
        if let Some(differs) = apart::differs(&puzzle, &puzzle.run(mended::solve)) {
            coloured += 1;
            other += usize::from(differs);
        }
    }
    assert!(other * 3 > coloured, "{other} of {coloured}");
}

#[test]
fn one_colour_means_the_same() {
    let mut random = Random::new(8);
    let mut left = 300;
    while left > 0 {
        let puzzle = any_limits(&mut random, 6);
        if puzzle.k == 1 {
            assert_eq!(apart::run(&puzzle), puzzle.run(mended::solve), "{puzzle}");
            left -= 1;
        }
    }
}
