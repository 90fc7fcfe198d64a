//! The cases of a differential run: puzzles, damaged and random bytes, buffers at their bounds, lines, rates and parts.

use oracle::{
    damage::DAMAGES,
    generate::{any_kind, any_limits, clue_of_line, edit, limited, random_grid, sparse, Random},
    mended,
    puzzle::{clue_bytes, Puzzle},
};

/// One case.
pub enum Case {
    Search(Puzzle),
    Line {
        k: usize,
        clue: Vec<u8>,
        cells: Vec<u8>,
    },
    Rate {
        max: u64,
        min: u64,
    },
    Part {
        length: usize,
        w: usize,
        h: usize,
        n: usize,
        i: usize,
    },
}

/// The kinds of cases, as the summary names them.
pub const KINDS: [&str; 8] = [
    "puzzles",
    "puzzles in which M2 or M3 was looked for",
    "damaged puzzles",
    "buffers at their bounds",
    "random bytes",
    "lines",
    "rates",
    "parts of a list",
];

/// What the case of this number is drawn from. It is the same for the same seed and number, whatever was run before it.
pub fn drawing(seed: u64, number: usize) -> Random {
    Random::new(Random::new(seed).bits() ^ Random::new(number as u64).bits())
}

/// A case, and the number of its kind.
pub fn case(seed: u64, number: usize) -> (usize, Case) {
    let random = &mut drawing(seed, number);
    match random.below(100) {
        0..=57 => (0, Case::Search(puzzle(random))),
        58..=69 => (1, Case::Search(seldom_mended(random))),
        70..=76 => (2, Case::Search(damaged(random))),
        77..=84 => (3, Case::Search(at_bounds(random))),
        85..=90 => (4, Case::Search(random_bytes(random))),
        91..=96 => (5, line(random)),
        97 => (6, rate(random)),
        _ => (7, part(random)),
    }
}

/// An accepted puzzle, most often a small one.
fn puzzle(random: &mut Random) -> Puzzle {
    let longest = random.pick(&[4, 6, 6, 6, 9, 16]);
    any_limits(random, longest)
}

/// The bits of M2 and M3, which seldom act.
const SELDOM: u8 = 0b110;

/// The widths and heights where they act most.
const SHAPES: [((usize, usize), (usize, usize)); 4] = [
    ((5, 6), (5, 6)),
    ((2, 3), (5, 14)),
    ((6, 7), (6, 7)),
    ((8, 9), (8, 9)),
];

/// The first puzzle of so many in which a mend acts that seldom does, or the last.
pub fn seldom_mended(random: &mut Random) -> Puzzle {
    let mut left = 40;
    loop {
        let ((least_w, most_w), (least_h, most_h)) = random.pick(&SHAPES);
        let (w, h) = (
            random.between(least_w, most_w),
            random.between(least_h, most_h),
        );
        let k = random.pick(&[1, 1, 1, 2, 3]);
        let puzzle = sparse(random, w, h, k).with_limits(128, 15, 400);
        left -= 1;
        if left > 0 && puzzle.run(mended::solve).answer.mends & SELDOM == 0 {
            continue;
        }
        let turned = if random.percent(50) {
            puzzle.transposed()
        } else {
            puzzle
        };
        return if random.percent(50) {
            limited(random, &turned)
        } else {
            turned
        };
    }
}

/// A puzzle of any size that need not reach the search, with limits that keep it short.
fn plain(random: &mut Random) -> Puzzle {
    let longest = random.pick(&[1, 2, 3, 5, 8, 16]);
    let (w, h) = (random.between(1, longest), random.between(1, longest));
    let k = random.between(1, 3);
    let grids = random.pick(&[0, 1, 2, 5, 127, 128]);
    any_kind(random, w, h, k).with_limits(grids, random.between(0, 15), 200)
}

/// A puzzle that is refused for one to three reasons.
fn damaged(random: &mut Random) -> Puzzle {
    let mut puzzle = plain(random);
    // From the last test to the first, so that each damage finds the parts that it breaks.
    let mut chosen: Vec<usize> = (0..random.between(1, 3))
        .map(|_| random.below(DAMAGES.len()))
        .collect();
    chosen.sort_unstable();
    chosen.dedup();
    for &at in chosen.iter().rev() {
        DAMAGES[at].1(random, &mut puzzle);
    }
    puzzle
}

/// A puzzle in which one buffer is one byte short, exactly as long as needed, or one byte over.
fn at_bounds(random: &mut Random) -> Puzzle {
    let mut puzzle = plain(random);
    let by = random.below(3);
    match random.below(3) {
        0 => puzzle.lent = (puzzle.lent + by).saturating_sub(1),
        1 => resize(random, &mut puzzle.cells, by),
        _ => resize(random, &mut puzzle.clues, by),
    }
    puzzle
}

/// Takes the last byte away, leaves the bytes as they are, or adds one.
fn resize(random: &mut Random, bytes: &mut Vec<u8>, by: usize) {
    match by {
        0 => drop(bytes.pop()),
        1 => (),
        _ => bytes.push(random.pick(&[0, 1, 2, 3, 255])),
    }
}

/// Numbers and bytes of every kind, some of which happen to be a puzzle.
fn random_bytes(random: &mut Random) -> Puzzle {
    let side = |random: &mut Random| match random.below(20) {
        0 => random.pick(&[0, 17, 255, 256, usize::MAX]),
        1..=3 => random.between(1, 16),
        _ => random.between(1, 4),
    };
    let (w, h) = (side(random), side(random));
    let k = match random.below(20) {
        0 => random.pick(&[0, 4, 255, 257, usize::MAX]),
        _ => random.between(1, 3),
    };
    let mut clues = Vec::new();
    for _ in 0..w.min(20) + h.min(20) {
        let count = random.pick(&[0, 0, 1, 1, 1, 2, 2, 3]);
        clues.push(count);
        for _ in 0..count {
            clues.push(random.between(1, k.clamp(1, 5)) as u8);
            clues.push(random.pick(&[1, 1, 1, 2, 3, 16]));
        }
    }
    let highest = 1 << (k.min(3) + 1);
    let cells = w.min(20) * h.min(20);
    let mut cells: Vec<u8> = (0..cells)
        .map(|_| random.between(1, highest - 1) as u8)
        .collect();
    scatter(random, &mut clues);
    scatter(random, &mut cells);
    let most_grids = random.pick(&[0, 1, 3, 128, 129]);
    let needed = most_grids * w.min(20) * h.min(20);
    Puzzle {
        w,
        h,
        k,
        most_grids,
        most_depth: random.pick(&[0, 1, 15, 15, 15, 16]),
        budget: random.pick(&[0, 1, 200, 200, 200, 1_000_000_001]),
        clues,
        cells,
        lent: random.pick(&[0, needed, needed, needed + 1, needed.max(1) - 1]),
    }
}

/// Puts random bytes into a few places, or leaves all as it is.
fn scatter(random: &mut Random, bytes: &mut [u8]) {
    if bytes.is_empty() || random.percent(60) {
        return;
    }
    for _ in 0..random.between(1, 3) {
        let at = random.below(bytes.len());
        bytes[at] = random.bits() as u8;
    }
}

/// A line that is accepted, or damaged.
fn line(random: &mut Random) -> Case {
    let k = random.between(1, 3);
    let length = random.between(1, 16);
    let all = (1 << (k + 1)) - 1;
    let filled = random.pick(&[20, 50, 80]);
    let colours = random_grid(random, filled, length, 1, k);
    let mut clue = clue_of_line(&colours);
    if random.percent(30) {
        edit(random, &mut clue, k);
    }
    let mut clue = clue_bytes(&clue);
    let mut cells: Vec<u8> = colours
        .iter()
        .map(|&colour| {
            if random.percent(60) {
                all
            } else {
                1 << colour | random.bits() as u8 & all
            }
        })
        .collect();
    let mut k = k;
    match random.below(20) {
        0 => k = random.pick(&[0, 1, 2, 3, 4, 255, 256, usize::MAX]),
        1 => scatter(random, &mut clue),
        2 => scatter(random, &mut cells),
        3 => resize(random, &mut clue, 0),
        4 => resize(random, &mut clue, 2),
        5 => cells.clear(),
        6 => cells.resize(random.between(16, 18), all),
        _ => (),
    }
    Case::Line { k, clue, cells }
}

/// Counts that are legal, or just above.
fn rate(random: &mut Random) -> Case {
    let large = [255, 256, 257, 1 << 32, u64::MAX];
    let count = |random: &mut Random| match random.below(5) {
        0 => random.pick(&large),
        _ => random.between(0, 255) as u64,
    };
    let (a, b) = (count(random), count(random));
    let (max, min) = if random.percent(90) && b > a {
        (b, a)
    } else {
        (a, b)
    };
    Case::Rate { max, min }
}

/// A part of a list that is short, exactly full, or one byte over.
fn part(random: &mut Random) -> Case {
    let side = |random: &mut Random| match random.below(20) {
        0 => random.pick(&[0, 17, 257, usize::MAX]),
        _ => random.between(1, 16),
    };
    let (w, h) = (side(random), side(random));
    let n = random.between(0, 9);
    let needed = n * w.min(20) * h.min(20);
    let length = random.pick(&[needed, needed, needed + 1, needed.max(1) - 1]);
    let n = match random.below(20) {
        0 => random.pick(&[usize::MAX, usize::MAX / 256 + 1]),
        _ => n,
    };
    let i = match random.below(20) {
        0 => random.pick(&[usize::MAX, usize::MAX / 256 + 1]),
        _ => random.between(0, 10),
    };
    Case::Part { length, w, h, n, i }
}
