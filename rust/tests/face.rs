//! Puzzles, answers and refusals as a program sees them.

use belutharin::{
    rate, reduce_line, solve, Answer, Block, Limit, Limits, Puzzle, Reduction, Refusal,
};

fn twin() -> Puzzle {
    Puzzle::new(vec![vec![1], vec![1]], vec![vec![1], vec![1]])
}

fn refused(puzzle: Puzzle, limits: Limits) -> (u8, String) {
    let refusal = solve(&puzzle, limits).expect_err("it should be refused");
    (refusal.number(), refusal.to_string())
}

fn says(number: u8, text: &str) -> (u8, String) {
    (number, text.to_string())
}

#[test]
fn a_list_is_complete_or_names_the_limit_met() {
    let Ok(Answer::Listed(all)) = solve(&twin(), Limits::default()) else {
        panic!("Twin is listed");
    };
    assert!(all.is_complete());
    assert_eq!(all.grids().len(), 2);
    assert_eq!((all.search().steps, all.search().deepest), (8, 1));
    assert_eq!(all.known(), [3; 4]);

    let limits = Limits {
        most_grids: 1,
        ..Limits::default()
    };
    let Ok(Answer::Listed(one)) = solve(&twin(), limits) else {
        panic!("Twin is listed");
    };
    assert_eq!(one.search().limit, Some(Limit::Grids));
    assert_eq!(one.grids().count(), 1);
}

#[test]
fn a_coloured_puzzle_is_solved() {
    let puzzle = Puzzle::new(
        vec![vec![(1, 1), (2, 1)], vec![]],
        vec![vec![(1, 1)], vec![], vec![(2, 1)]],
    );
    let answer = solve(&puzzle, Limits::default()).expect("it is accepted");
    let Answer::Solved(ref solution) = answer else {
        panic!("the clues decide every cell");
    };
    let grid = solution.grid();
    assert_eq!((grid.width(), grid.height()), (3, 2));
    assert_eq!(grid.to_string(), "102\n000\n");
    assert_eq!(grid.colour(0, 2), Some(2));
    assert_eq!((grid.colour(2, 0), grid.colour(0, 3)), (None, None));
    assert_eq!(grid.rows().next(), Some(vec![1, 0, 2]));
    assert_eq!(answer.grids().collect::<Vec<_>>(), [grid]);
}

#[test]
fn colours_may_touch() {
    let puzzle = Puzzle::new(
        vec![vec![(1, 1)], vec![(1, 1), (2, 1)]],
        vec![vec![(1, 1)], vec![(1, 1)], vec![(2, 1)]],
    );
    let Ok(Answer::Listed(listed)) = solve(&puzzle, Limits::default()) else {
        panic!("two grids fit");
    };
    assert!(listed.is_complete());
    let drawn: Vec<_> = listed.grids().map(|grid| grid.to_string()).collect();
    assert_eq!(drawn, ["100\n012\n", "010\n102\n"]);
}

#[test]
fn a_dead_end_has_no_grid() {
    let puzzle = Puzzle::new(vec![vec![1]], vec![vec![]]);
    let answer = solve(&puzzle, Limits::default()).expect("it is accepted");
    assert!(matches!(answer, Answer::DeadEnd(search) if search.steps == 0));
    assert_eq!(answer.grids().next(), None);
}

#[test]
fn known_cells_decide() {
    let answer = solve(&twin().with_known(0, 0, 1), Limits::default()).expect("it is accepted");
    let drawn: Vec<_> = answer.grids().map(|grid| grid.to_string()).collect();
    assert_eq!(drawn, ["10\n01\n"]);
    assert_eq!(twin().with_known(2, 0, 1).with_known(0, 2, 1), twin());
}

#[test]
fn refusals_of_sizes_colours_and_limits() {
    let empty = Puzzle::new(Vec::<Vec<u8>>::new(), vec![vec![]]);
    assert_eq!(
        refused(empty, Limits::default()),
        says(
            11,
            "the puzzle is 1 cells wide and 0 high; both must be 1 to 16"
        )
    );
    let many = twin().with_colours(4);
    assert_eq!(
        refused(many, Limits::default()),
        says(
            12,
            "the puzzle has 4 colours besides blank; it must have 1 to 3"
        )
    );
    assert_eq!(
        refused(twin().with_colours(usize::MAX), Limits::default()).0,
        12
    );
    let grids = Limits {
        most_grids: usize::MAX,
        ..Limits::default()
    };
    assert_eq!(
        refused(twin(), grids),
        says(
            13,
            "18446744073709551615 grids are asked for, and at most 128 can be"
        )
    );
    let depth = Limits {
        most_depth: 16,
        ..Limits::default()
    };
    assert_eq!(
        refused(twin(), depth),
        says(13, "a depth of 16 is asked for, and at most 15 can be")
    );
    let budget = Limits {
        budget: 1_000_000_001,
        ..Limits::default()
    };
    assert_eq!(
        refused(twin(), budget),
        says(
            13,
            "a budget of 1000000001 steps is asked for, and at most 1000000000 can be"
        )
    );
}

#[test]
fn refusals_of_clues_and_cells() {
    let long = Puzzle::new(vec![vec![1], vec![17]], vec![vec![1], vec![1]]);
    assert_eq!(
        refused(long, Limits::default()),
        says(
            14,
            "row 1: block 0 is 17 cells long, and 1 to 16 are allowed"
        )
    );
    let blank = Puzzle::new(vec![vec![(1, 1)]], vec![vec![(1, 1), (0, 1)]]);
    assert_eq!(
        refused(blank, Limits::default()),
        says(
            14,
            "column 0: block 1 has colour 0, and the colours are 1 to 1"
        )
    );
    let crowded = Puzzle::new(vec![vec![1; 300]], vec![vec![1]]);
    assert_eq!(
        refused(crowded, Limits::default()),
        says(
            14,
            "row 0: the clue has 300 blocks, and at most 16 are allowed"
        )
    );
    assert_eq!(
        refused(twin().with_cells(vec![3; 5]), Limits::default()),
        says(15, "there are 5 cells, and 4 are needed")
    );
    assert_eq!(
        refused(twin().with_cells(vec![3, 0, 3, 3]), Limits::default()),
        says(15, "cell 1 has no colour left, not even blank")
    );
    assert_eq!(
        refused(twin().with_known(1, 0, 2), Limits::default()),
        says(
            15,
            "cell 2 has the set 4, with a colour that the puzzle does not have"
        )
    );
}

#[test]
fn lines_and_rates() {
    let block = |length: u8| Block::from(length);
    assert_eq!(
        reduce_line(1, &[block(2)], &mut [3]),
        Ok(Reduction::Contradiction)
    );
    let number = |result: Result<Reduction, Refusal>| result.map_err(|refusal| refusal.number());
    assert_eq!(number(reduce_line(0, &[block(2)], &mut [3])), Err(12));
    assert_eq!(number(reduce_line(1, &[block(0)], &mut [3])), Err(14));
    assert_eq!(number(reduce_line(1, &[block(1)], &mut [])), Err(15));
    let seventeen = reduce_line(1, &[block(1)], &mut [3; 17]).unwrap_err();
    assert_eq!(
        seventeen.to_string(),
        "the line has 17 cells; it must have 1 to 16"
    );
    assert_eq!(rate(9, 3), Ok(4.5));
    let counts = rate(3, 4).unwrap_err();
    assert_eq!(
        (counts.number(), counts.to_string().contains("3 and 4")),
        (19, true)
    );
}

#[test]
fn any_thread_may_search() {
    let searches: Vec<_> = (0..4)
        .map(|_| std::thread::spawn(|| solve(&twin(), Limits::default())))
        .collect();
    for search in searches {
        let answer = search
            .join()
            .expect("no thread fails")
            .expect("Twin is accepted");
        assert_eq!(answer.grids().len(), 2);
    }
}
