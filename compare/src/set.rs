//! The benchmark's puzzles: how they were chosen, and the file that holds them.

use oracle::{
    apart,
    generate::{any_kind, edited, sparse, Kind, Random},
    mended,
    puzzle::{clue_bytes, Outcome, Puzzle},
};
use std::{fmt::Write, fs, path::Path, str::SplitAsciiWhitespace};

/// A class of puzzles: its name in the file, what it is, how many there are, how they are made, how many grids are asked for, and of how many that
/// fit the one with the fewest solved cells is taken.
pub struct Class {
    pub name: &'static str,
    pub title: &'static str,
    count: usize,
    kind: Kind,
    most_grids: usize,
    drawn: usize,
    fits: fn(&Puzzle, &Outcome) -> bool,
}

pub const CLASSES: [Class; 6] = [
    Class {
        name: "probed",
        title: "solved by the first probing",
        count: 36,
        kind: any_kind,
        most_grids: 128,
        drawn: 1,
        fits: |puzzle, run| {
            run.answer.number == 1 && solved(puzzle.cells.as_slice()) * 2 < run.cells.len()
        },
    },
    Class {
        name: "one",
        title: "one grid after search",
        count: 36,
        kind: sparse,
        most_grids: 1,
        drawn: 1,
        fits: |_, run| run.answer.number == 2 && run.answer.grids == 1,
    },
    Class {
        name: "several",
        title: "several grids",
        count: 36,
        kind: sparse,
        most_grids: 128,
        drawn: 1,
        fits: |_, run| {
            run.answer.number == 2 && (2..=9).contains(&run.answer.grids) && run.answer.limit == 0
        },
    },
    Class {
        name: "many",
        title: "many grids",
        count: 36,
        kind: sparse,
        most_grids: 128,
        drawn: 1,
        fits: |_, run| run.answer.number == 2 && run.answer.grids >= 10,
    },
    Class {
        name: "dead",
        title: "dead ends",
        count: 28,
        kind: edited,
        most_grids: 128,
        drawn: 1,
        fits: |_, run| run.answer.number == 3,
    },
    Class {
        name: "few",
        title: "few solved cells",
        count: 28,
        kind: sparse,
        most_grids: 128,
        drawn: 60,
        fits: |_, run| run.answer.number == 2,
    },
];

/// The budget of every puzzle of the set, which keeps the wait short. The depth is the widest.
const BUDGET: u64 = 2_000;

/// M4 alone puts the board back after a dead end; the search is the same without it.
const M4: u8 = 8;

fn solved(cells: &[u8]) -> usize {
    cells.iter().filter(|cell| cell.count_ones() == 1).count()
}

/// A puzzle of the set, with the place of its class.
pub struct Entry {
    pub class: usize,
    pub puzzle: Puzzle,
}

/// The lines of a puzzle as it is given: the bytes of each clue, and its cells.
pub fn lines(puzzle: &Puzzle) -> Vec<(Vec<u8>, Vec<u8>)> {
    let Puzzle { w, h, .. } = *puzzle;
    let clues = puzzle.clue_list();
    let clues = clues.iter().map(|clue| clue_bytes(clue));
    let row = |y: usize| puzzle.cells[y * w..(y + 1) * w].to_vec();
    let column = |x: usize| puzzle.cells[x..].iter().step_by(w).copied().collect();
    clues
        .zip((0..h).map(row).chain((0..w).map(column)))
        .collect()
}

/// Whether some line of the puzzle, as it is given, would be reduced otherwise if no two blocks might touch.
fn touches(puzzle: &Puzzle) -> bool {
    let mut lines = lines(puzzle).into_iter();
    lines.any(|(clue, cells)| apart::line_differs(puzzle.k, &clue, &cells) == Some(true))
}

/// Chooses the set and writes it: for each class puzzles from a seed, sizes and colours in turn, on which no mend changes the search, and with two
/// colours or more those in which it matters that colours may touch.
pub fn choose(out: &Path) -> Result<(), String> {
    let mut random = Random::new(200);
    let mut text = String::new();
    let mut total = 0;
    for (at, class) in CLASSES.iter().enumerate() {
        for number in 0..class.count {
            // 8 to 16, and 1 to 3, so that each size and number of colours has its share.
            let (w, h) = (8 + (number * 2 + at) % 9, 8 + (number * 7 + at * 5) % 9);
            let puzzle = draw(&mut random, class, w, h, 1 + number % 3)?;
            write_entry(&mut text, class, &puzzle);
            total += 1;
        }
        eprintln!("{}: {}", class.title, class.count);
    }
    fs::write(out, format!("{total}\n{text}"))
        .map_err(|error| format!("{}: {error}", out.display()))
}

/// Of the puzzles that fit, the one in which the fewest cells are solved before the first guess.
fn draw(
    random: &mut Random,
    class: &Class,
    w: usize,
    h: usize,
    k: usize,
) -> Result<Puzzle, String> {
    let mut fitting = Vec::new();
    for _ in 0..20_000 {
        let puzzle = (class.kind)(random, w, h, k).with_limits(class.most_grids, 15, BUDGET);
        if k > 1 && !touches(&puzzle) {
            continue;
        }
        let run = puzzle.run(mended::solve);
        if run.answer.mends & !M4 == 0 && (class.fits)(&puzzle, &run) {
            fitting.push((solved(&run.cells), puzzle));
            if fitting.len() == class.drawn {
                break;
            }
        }
    }
    let fewest = fitting.into_iter().min_by_key(|(solved, _)| *solved);
    let none = || {
        format!(
            "no puzzle of class {} found for {w}x{h}, k = {k}",
            class.name
        )
    };
    fewest.map(|(_, puzzle)| puzzle).ok_or_else(none)
}

fn write_entry(text: &mut String, class: &Class, puzzle: &Puzzle) {
    let Puzzle {
        w,
        h,
        k,
        most_grids,
        most_depth,
        budget,
        ..
    } = puzzle;
    write!(
        text,
        "{} {w} {h} {k} {most_grids} {most_depth} {budget}",
        class.name
    )
    .expect("text can be written");
    for bytes in [&puzzle.clues, &puzzle.cells] {
        write!(text, " {}", bytes.len()).expect("text can be written");
        for byte in bytes {
            write!(text, " {byte}").expect("text can be written");
        }
    }
    text.push('\n');
}

/// Reads the set: the number of puzzles, then for each its class, `w h k most_grids most_depth budget`, and its clues and cells, each with its length before it.
pub fn read(file: &Path) -> Result<Vec<Entry>, String> {
    let text = fs::read_to_string(file).map_err(|error| format!("{}: {error}", file.display()))?;
    let mut words = text.split_ascii_whitespace();
    let entries =
        number(&mut words).and_then(|count| (0..count).map(|_| entry(&mut words)).collect());
    entries.ok_or_else(|| format!("{} is not a set of puzzles", file.display()))
}

fn number(words: &mut SplitAsciiWhitespace) -> Option<usize> {
    words.next()?.parse().ok()
}

fn bytes(words: &mut SplitAsciiWhitespace) -> Option<Vec<u8>> {
    (0..number(words)?)
        .map(|_| words.next()?.parse().ok())
        .collect()
}

fn entry(words: &mut SplitAsciiWhitespace) -> Option<Entry> {
    let name = words.next()?;
    let class = CLASSES.iter().position(|class| class.name == name)?;
    let (w, h, k) = (number(words)?, number(words)?, number(words)?);
    let (most_grids, most_depth, budget) = (number(words)?, number(words)?, number(words)?);
    let (clues, cells) = (bytes(words)?, bytes(words)?);
    let puzzle = Puzzle {
        clues,
        ..Puzzle::new(w, h, k, &[], cells)
    };
    Some(Entry {
        class,
        puzzle: puzzle.with_limits(most_grids, most_depth, budget as u64),
    })
}
