//! The cases of `refusals.txt`: every limit of the input from both sides, each damage alone, and damages together.

use oracle::{
    damage::DAMAGES,
    generate::{any_kind, Random},
    mended,
    puzzle::{Clue, Puzzle},
};

const SEED: u64 = 16;
const ALONE: usize = 40;
const TOGETHER: usize = 300;

/// All cases, each refused.
pub fn refused() -> Result<Vec<Puzzle>, String> {
    let mut random = Random::new(SEED);
    let mut cases = edges();
    cases.extend(largest());
    for (number, damage) in DAMAGES {
        for _ in 0..ALONE {
            let mut puzzle = accepted(&mut random);
            damage(&mut random, &mut puzzle);
            cases.push((number, puzzle));
        }
    }
    for _ in 0..TOGETHER {
        cases.push(together(&mut random));
    }
    cases
        .into_iter()
        .map(
            |(number, puzzle)| match puzzle.run(mended::solve).answer.number {
                given if given == number => Ok(puzzle),
                given => Err(format!(
                    "{given} is given where {number} applies:\n{puzzle}"
                )),
            },
        )
        .collect()
}

fn accepted(random: &mut Random) -> Puzzle {
    let longest = random.pick(&[2, 4, 8, 16]);
    let w = random.between(1, longest);
    let h = random.between(1, longest);
    let k = random.between(1, 3);
    let most_grids = random.between(0, 4);
    any_kind(random, w, h, k).with_limits(most_grids, 15, 100)
}

/// Two or more damages: the lowest number wins. Sizes and colours are broken last, since the others read them.
fn together(random: &mut Random) -> (u8, Puzzle) {
    let mut puzzle = accepted(random);
    let first = random.below(DAMAGES.len() - 1);
    let second = random.between(first + 1, DAMAGES.len() - 1);
    for at in (first..DAMAGES.len()).rev() {
        if at == first || at == second || random.percent(30) {
            DAMAGES[at].1(random, &mut puzzle);
        }
    }
    (DAMAGES[first].0, puzzle)
}

/// The largest input that is allowed, made larger or shorter by one.
fn largest() -> Vec<(u8, Puzzle)> {
    let clues = vec![vec![(3, 16); 16]; 32];
    let fullest = Puzzle::new(16, 16, 3, &clues, vec![15; 256]).with_limits(128, 15, 1_000_000_000);
    let changed = |number: u8, change: fn(&mut Puzzle)| {
        let mut puzzle = fullest.clone();
        change(&mut puzzle);
        (number, puzzle)
    };
    vec![
        changed(13, |puzzle| puzzle.budget += 1),
        changed(14, |puzzle| puzzle.clues.push(0)),
        changed(14, |puzzle| puzzle.clues.truncate(1_055)),
        changed(14, |puzzle| puzzle.clues[1_055] = 17),
        changed(15, |puzzle| puzzle.cells.push(15)),
        changed(15, |puzzle| puzzle.cells.truncate(255)),
        changed(15, |puzzle| puzzle.cells[255] = 16),
        changed(16, |puzzle| puzzle.lent -= 1),
    ]
}

/// Twin, broken at every edge by the least that breaks it.
fn edges() -> Vec<(u8, Puzzle)> {
    let twin = Puzzle::new(2, 2, 1, &vec![vec![(1, 1)]; 4], vec![3; 4]).with_limits(4, 15, 100);
    let mut cases = Vec::new();
    let mut add = |number: u8, change: &dyn Fn(&mut Puzzle)| {
        let mut puzzle = twin.clone();
        change(&mut puzzle);
        cases.push((number, puzzle));
    };
    for size in [
        0,
        17,
        255,
        258,
        65_538,
        4_294_967_295,
        4_294_967_298,
        usize::MAX,
    ] {
        add(11, &|puzzle| puzzle.w = size);
        add(11, &|puzzle| puzzle.h = size);
        add(11, &|puzzle| (puzzle.w, puzzle.h) = (size, size));
    }
    for colours in [
        0,
        4,
        255,
        257,
        65_537,
        4_294_967_295,
        4_294_967_297,
        usize::MAX,
    ] {
        add(12, &|puzzle| puzzle.k = colours);
    }
    for grids in [129, 255, 260, 4_294_967_295, 4_294_967_300, usize::MAX] {
        add(13, &|puzzle| puzzle.most_grids = grids);
    }
    for depth in [16, 255, 256, 4_294_967_295, 4_294_967_296, usize::MAX] {
        add(13, &|puzzle| puzzle.most_depth = depth);
    }
    for budget in [1_000_000_001, 4_294_967_295, 4_294_967_396, u64::MAX] {
        add(13, &|puzzle| puzzle.budget = budget);
    }
    for line in 0..4 {
        let mut broken = |clue: Clue| {
            add(14, &|puzzle| {
                let mut clues = puzzle.clue_list();
                clues[line].clone_from(&clue);
                puzzle.set_clues(&clues);
            });
        };
        for block in [(0, 1), (2, 1), (255, 1), (1, 0), (1, 17), (1, 255)] {
            broken(vec![block]);
            broken(vec![(1, 1), block]);
        }
        broken(vec![(1, 1); 17]);
        broken(vec![(1, 1); 255]);
        add(14, &|puzzle| puzzle.clues[3 * line] = 2);
        add(14, &|puzzle| puzzle.clues[3 * line] = 0);
        add(14, &|puzzle| puzzle.clues[3 * line] = 255);
        add(14, &|puzzle| puzzle.clues.truncate(3 * line));
        add(14, &|puzzle| puzzle.clues.truncate(3 * line + 1));
        add(14, &|puzzle| puzzle.clues.truncate(3 * line + 2));
    }
    add(14, &|puzzle| puzzle.clues.push(0));
    add(14, &|puzzle| puzzle.clues.extend([1, 1, 1]));
    for cell in 0..4 {
        for set in [0, 4, 5, 7, 8, 16, 128, 255] {
            add(15, &|puzzle| puzzle.cells[cell] = set);
        }
    }
    for count in [0, 1, 3, 5, 8] {
        add(15, &|puzzle| puzzle.cells.resize(count, 3));
    }
    for lent in [0, 1, 4, 15] {
        add(16, &|puzzle| puzzle.lent = lent);
    }
    cases
}
