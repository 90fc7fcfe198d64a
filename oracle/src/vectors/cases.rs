//! The puzzles of `search.txt`: tiny ones, every size, small and large ones that search, and those in which mends act.

use oracle::{
    generate::{any_kind, any_limits, edited, limited, misread, searching, sparse, Kind, Random},
    mended,
    puzzle::{Clue, Puzzle},
};

const SEED: u64 = 20_240_229;
const SMALL: usize = 2_400;
const LARGE: usize = 300;
const DEAD: usize = 120;
const MISREAD: usize = 150;
const LONG: usize = 4;
const HUNT: usize = 40_000;

/// Widths and heights, from and to, of the boards in which rare mends are looked for.
const SHAPES: [((usize, usize), (usize, usize)); 4] = [
    ((5, 6), (5, 6)),
    ((2, 3), (5, 14)),
    ((6, 7), (6, 7)),
    ((8, 9), (8, 9)),
];

/// The bits of M2 and M3 in a mask of mends.
const RARE_MENDS: u8 = 0b0110;

/// All cases, each once.
pub fn search_cases() -> Vec<Puzzle> {
    let mut random = Random::new(SEED);
    let mut cases = worked();
    cases.extend(tiny());
    cases.extend(every_size(&mut random));
    cases.extend(small(&mut random));
    cases.extend(large(&mut random));
    cases.extend(dead_after_search(&mut random));
    cases.extend(wrong_in_search(&mut random));
    cases.extend(deep());
    cases.extend(long(&mut random));
    cases.extend(rare_mends(&mut random));
    let mut once: Vec<Puzzle> = Vec::new();
    for case in cases {
        if !once.contains(&case) {
            once.push(case);
        }
    }
    once
}

/// The worked puzzles of docs/RULES.md, and the largest input that the rules allow.
fn worked() -> Vec<Puzzle> {
    let one_cell = |row: Clue, column: Clue, cell| {
        Puzzle::new(1, 1, 1, &[row, column], vec![cell]).with_limits(1, 15, 100)
    };
    let twin = Puzzle::new(2, 2, 1, &vec![vec![(1, 1)]; 4], vec![3; 4]);
    let wide = Puzzle::new(16, 1, 1, &vec![vec![]; 17], vec![3; 16]);
    let fullest = Puzzle::new(16, 16, 3, &vec![vec![(3, 16); 16]; 32], vec![15; 256]);
    vec![
        one_cell(vec![], vec![], 3),
        one_cell(vec![(1, 1)], vec![], 3),
        one_cell(vec![], vec![], 2),
        twin.clone().with_limits(4, 15, 100),
        twin.clone().with_limits(2, 15, 100),
        twin.clone().with_limits(0, 15, 100),
        twin.clone().with_limits(4, 0, 100),
        twin.clone().with_limits(4, 15, 1),
        twin.clone().with_limits(4, 15, 0),
        wide.with_limits(1, 15, 100),
        twin.with_limits(128, 15, 1_000_000_000),
        fullest.with_limits(128, 15, 100),
    ]
}

/// Every clue and cell of one cell, and every clue of four open cells, in one colour.
fn tiny() -> Vec<Puzzle> {
    let clues: [Clue; 3] = [vec![], vec![(1, 1)], vec![(1, 2)]];
    let clue = |number: usize, line: u32| clues[number / 3_usize.pow(line) % 3].clone();
    let one = (0..27).map(|number| {
        let cell = number / 9 + 1;
        let clues = [clue(number, 0), clue(number, 1)];
        Puzzle::new(1, 1, 1, &clues, vec![cell as u8]).with_limits(2, 1, 50)
    });
    let four = (0..81).map(|number| {
        let clues: Vec<_> = (0..4).map(|line| clue(number, line)).collect();
        Puzzle::new(2, 2, 1, &clues, vec![3; 4]).with_limits(3, 2, 50)
    });
    one.chain(four).collect()
}

/// One puzzle for each size and number of colours.
fn every_size(random: &mut Random) -> Vec<Puzzle> {
    let mut cases = Vec::new();
    for w in 1..=16 {
        for h in 1..=16 {
            for k in 1..=3 {
                let kind = random.pick::<Kind>(&[any_kind, sparse, sparse, edited]);
                let puzzle = searching(random, kind, 4, |_| (w, h, k));
                let limited = limited(random, &puzzle);
                cases.push(brief(random, limited));
            }
        }
    }
    cases
}

/// Boards of at most seven cells a side; nine of ten reach the search.
fn small(random: &mut Random) -> Vec<Puzzle> {
    let mut cases = Vec::new();
    while cases.len() < SMALL {
        let longest = random.between(3, 7);
        let puzzle = any_limits(random, longest);
        if random.percent(10) || puzzle.run(mended::solve).searched() {
            cases.push(brief(random, puzzle));
        }
    }
    cases
}

/// Boards of nine to sixteen cells a side that reach the search.
fn large(random: &mut Random) -> Vec<Puzzle> {
    let mut cases = Vec::new();
    while cases.len() < LARGE {
        let kind = random.pick::<Kind>(&[any_kind, sparse, sparse, edited]);
        let puzzle = searching(random, kind, 20, |random| {
            (
                random.between(9, 16),
                random.between(9, 16),
                random.between(1, 3),
            )
        });
        let limited = limited(random, &puzzle);
        if limited.run(mended::solve).searched() {
            cases.push(brief(random, limited));
        }
    }
    cases
}

/// Puzzles that only the search finds to be a dead end.
fn dead_after_search(random: &mut Random) -> Vec<Puzzle> {
    let mut cases = Vec::new();
    while cases.len() < DEAD {
        let puzzle = searching(random, edited, 20, |random| {
            (
                random.between(3, 8),
                random.between(3, 8),
                random.between(1, 3),
            )
        });
        let answer = puzzle.run(mended::solve).answer;
        if answer.number == 3 && answer.deepest > 0 {
            cases.push(limited(random, &puzzle));
            let shallow = (0..answer.deepest).map(|depth| Puzzle {
                most_depth: depth,
                ..puzzle.clone()
            });
            cases.extend(shallow.filter(|puzzle| puzzle.run(mended::solve).answer.limit == 3));
            cases.push(puzzle);
        }
    }
    cases
}

/// Puzzles with a wrong line that only the final check inside the search can see.
fn wrong_in_search(random: &mut Random) -> Vec<Puzzle> {
    let mut cases = Vec::new();
    while cases.len() < MISREAD {
        let puzzle = searching(random, misread, 20, |random| {
            (
                random.between(2, 8),
                random.between(2, 8),
                random.between(1, 3),
            )
        });
        let answer = puzzle.run(mended::solve).answer;
        if answer.mends & 1 == 1 && answer.deepest > 0 {
            let limited = limited(random, &puzzle);
            cases.push(brief(random, limited));
        }
    }
    cases
}

/// Square boards with one filled cell in each line: many grids, and the deepest paths of guesses.
fn deep() -> Vec<Puzzle> {
    let mut cases = Vec::new();
    for side in 3..=16 {
        for k in 1..=2 {
            let clue = |line: usize| vec![((line % side % k) as u8 + 1, 1)];
            let clues: Vec<_> = (0..2 * side).map(clue).collect();
            let open = (1 << (k + 1)) - 1;
            let puzzle = Puzzle::new(side, side, k, &clues, vec![open; side * side]);
            let most_grids = if side < 7 { 128 } else { 4 };
            for most_depth in [side / 2, 15] {
                let puzzle = puzzle.clone();
                cases.push(puzzle.with_limits(most_grids, most_depth, 1_500));
            }
        }
    }
    cases
}

/// A few long searches.
fn long(random: &mut Random) -> Vec<Puzzle> {
    let mut cases = Vec::new();
    while cases.len() < LONG {
        let puzzle = searching(random, sparse, 20, |random| {
            (
                random.between(7, 16),
                random.between(7, 16),
                random.between(1, 3),
            )
        });
        let puzzle = puzzle.with_limits(10, 15, 4_000);
        if puzzle.run(mended::solve).answer.steps > 3_000 {
            cases.push(puzzle);
        }
    }
    cases
}

/// All puzzles found in a fixed effort in which M2 or M3 acts, with what turning and limiting makes of them.
fn rare_mends(random: &mut Random) -> Vec<Puzzle> {
    let acts = |puzzle: &Puzzle| puzzle.run(mended::solve).answer.mends & RARE_MENDS != 0;
    let mut cases = Vec::new();
    for _ in 0..HUNT {
        let ((least_w, most_w), (least_h, most_h)) = random.pick(&SHAPES);
        let w = random.between(least_w, most_w);
        let h = random.between(least_h, most_h);
        let k = random.pick(&[1, 1, 1, 2, 3]);
        let puzzle = sparse(random, w, h, k).with_limits(128, 15, 400);
        if acts(&puzzle) {
            let limited = limited(random, &puzzle);
            let turned = turned(&puzzle);
            cases.extend(
                turned
                    .into_iter()
                    .chain([limited])
                    .filter(acts)
                    .map(|case| brief(random, case)),
            );
        }
    }
    cases
}

/// The eight ways to turn and mirror a puzzle.
fn turned(puzzle: &Puzzle) -> Vec<Puzzle> {
    let mut all = Vec::new();
    let mut next = puzzle.clone();
    for _ in 0..4 {
        let mirrored = next.mirrored();
        all.push(next);
        next = mirrored.transposed();
        all.push(mirrored);
    }
    all
}

/// The puzzle with fewer grids to list where they would take much room; one in twenty keeps all.
fn brief(random: &mut Random, puzzle: Puzzle) -> Puzzle {
    let room = if random.percent(5) { 12_000 } else { 800 };
    let most_grids = puzzle.most_grids.min((room / (puzzle.w * puzzle.h)).max(1));
    Puzzle {
        most_grids,
        ..puzzle
    }
}
