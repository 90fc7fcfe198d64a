//! The benchmark: the library and the unmended oracle on the same puzzles, in turns within one run.

use crate::{
    library, machine,
    set::{lines, read, Entry, CLASSES},
};
use oracle::{puzzle::Puzzle, raw, unmended};
use std::{fmt::Write, fs, hint::black_box, path::Path, time::Instant};

/// Each is timed so often, in turns, and its best time counts.
const ROUNDS: usize = 7;

/// One timing lasts at least so long, by as many runs as that takes.
const LEAST_SECONDS: f64 = 0.001;

/// The best times of the library and of the oracle, in seconds.
#[derive(Clone, Copy)]
struct Times {
    library: f64,
    oracle: f64,
}

impl Times {
    fn ratio(self) -> f64 {
        self.library / self.oracle
    }
}

/// The times of one puzzle: of its search, and of reducing one of its lines.
struct Timed {
    class: usize,
    search: Times,
    line: Times,
}

/// Times the set, prints the table, and writes it to the page with what the machine is.
pub fn run(set: &Path, out: &Path) -> Result<(), String> {
    let entries = read(set)?;
    let mut timed = Vec::new();
    for (at, entry) in entries.iter().enumerate() {
        timed.push(time_entry(entry)?);
        if (at + 1) % 20 == 0 || at + 1 == entries.len() {
            eprintln!("{} of {} puzzles", at + 1, entries.len());
        }
    }
    let table = table(&timed);
    print!("{table}");
    fs::write(out, page(&table)).map_err(|error| format!("{}: {error}", out.display()))
}

/// Runs the library alone on a class of the set, for a profiler to look at.
pub fn profile(set: &Path, class: &str, turns: usize) -> Result<(), String> {
    let entries = read(set)?;
    let of_class = entries
        .iter()
        .filter(|entry| CLASSES[entry.class].name == class);
    let puzzles: Vec<&Puzzle> = of_class.map(|entry| &entry.puzzle).collect();
    for _ in 0..turns {
        for puzzle in &puzzles {
            black_box(puzzle.run(library::solve));
        }
    }
    Ok(())
}

fn time_entry(entry: &Entry) -> Result<Timed, String> {
    let puzzle = &entry.puzzle;
    // The numbers must be the same, or else the times are of different searches. A dead end's board is put back by the library alone.
    let (ours, theirs) = (puzzle.run(library::solve), puzzle.run(unmended::solve));
    let same = ours
        .differences(&theirs)
        .iter()
        .all(|what| what == "board" && ours.answer.number == 3);
    if !same {
        return Err(format!("the library and the unmended oracle differ on\n{puzzle}library: {ours}\noracle: {theirs}"));
    }
    let search = in_turns(
        || drop(black_box(puzzle.run(library::solve))),
        || drop(black_box(puzzle.run(unmended::solve))),
    );
    let lines = lines(puzzle);
    let all = in_turns(
        || reduce_all(&lines, puzzle.k, belutharin::raw::reduce_line),
        || reduce_all(&lines, puzzle.k, raw::reduce_line),
    );
    let each = |seconds: f64| seconds / lines.len() as f64;
    let line = Times {
        library: each(all.library),
        oracle: each(all.oracle),
    };
    Ok(Timed {
        class: entry.class,
        search,
        line,
    })
}

/// The best time of each of two, which are run in turns. Which goes first changes with each round.
fn in_turns(library: impl Fn(), oracle: impl Fn()) -> Times {
    let turns = |run: &dyn Fn()| {
        (LEAST_SECONDS / once(run).max(1e-9))
            .ceil()
            .clamp(1.0, 10_000.0) as usize
    };
    let (ours, theirs) = (turns(&library), turns(&oracle));
    let mut best = Times {
        library: f64::INFINITY,
        oracle: f64::INFINITY,
    };
    for round in 0..ROUNDS {
        if round % 2 == 0 {
            best.library = best.library.min(mean(&library, ours));
        }
        best.oracle = best.oracle.min(mean(&oracle, theirs));
        if round % 2 == 1 {
            best.library = best.library.min(mean(&library, ours));
        }
    }
    best
}

fn once(run: &dyn Fn()) -> f64 {
    mean(run, 1)
}

fn mean(run: &dyn Fn(), turns: usize) -> f64 {
    let begun = Instant::now();
    for _ in 0..turns {
        run();
    }
    begun.elapsed().as_secs_f64() / turns as f64
}

fn reduce_all(lines: &[(Vec<u8>, Vec<u8>)], k: usize, reduce: fn(usize, &[u8], &mut [u8]) -> u8) {
    let mut lent = [0; 16];
    for (clue, cells) in lines {
        let lent = &mut lent[..cells.len()];
        lent.copy_from_slice(cells);
        black_box(reduce(k, black_box(clue), black_box(lent)));
    }
}

/// A line for each class, and one for all.
fn table(timed: &[Timed]) -> String {
    let mut text = String::from(
        "| Class | Puzzles | Median ratio | Worst ratio | A search: library, oracle | A line: library, oracle |\n|---|---|---|---|---|---|\n",
    );
    for (at, class) in CLASSES.iter().enumerate() {
        let of_class: Vec<&Timed> = timed.iter().filter(|timed| timed.class == at).collect();
        row(&mut text, class.title, &of_class);
    }
    row(&mut text, "all", &timed.iter().collect::<Vec<_>>());
    text
}

fn row(text: &mut String, title: &str, timed: &[&Timed]) {
    if timed.is_empty() {
        return;
    }
    let ratios = sorted(timed.iter().map(|timed| timed.search.ratio()));
    let middle = |time: fn(&Timed) -> f64| median(&sorted(timed.iter().map(|timed| time(timed))));
    writeln!(
        text,
        "| {title} | {} | {:.2} | {:.2} | {}, {} | {}, {} |",
        timed.len(),
        median(&ratios),
        ratios[ratios.len() - 1],
        shown(middle(|timed| timed.search.library)),
        shown(middle(|timed| timed.search.oracle)),
        shown(middle(|timed| timed.line.library)),
        shown(middle(|timed| timed.line.oracle)),
    )
    .expect("text can be written");
}

fn sorted(numbers: impl Iterator<Item = f64>) -> Vec<f64> {
    let mut numbers: Vec<f64> = numbers.collect();
    numbers.sort_by(f64::total_cmp);
    numbers
}

fn median(sorted: &[f64]) -> f64 {
    let middle = sorted.len() / 2;
    if sorted.len() % 2 == 1 {
        sorted[middle]
    } else {
        (sorted[middle - 1] + sorted[middle]) / 2.0
    }
}

/// A time with a unit that suits it.
fn shown(seconds: f64) -> String {
    match seconds {
        s if s < 1e-6 => format!("{:.0} ns", s * 1e9),
        s if s < 1e-3 => format!("{:.1} µs", s * 1e6),
        s => format!("{:.2} ms", s * 1e3),
    }
}

fn page(table: &str) -> String {
    let machine: String = machine::description()
        .iter()
        .map(|line| format!("- {line}\n"))
        .collect();
    format!(
        "# How fast it is

`make benchmark` runs the library and the unmended oracle on the 200 puzzles of `compare/puzzles.txt`, both optimised, in turns within one run, and writes this page. A ratio is
the library's time divided by the oracle's on the same puzzle: below 1 the library is faster. Each puzzle is timed {ROUNDS} times by each side, and the best time counts. The times are medians over the puzzles.

{table}
A line is one call of `reduce_line`, over the lines of the class's puzzles as they are given; reading the clue is part of it on both sides.

## The puzzles

They are 8×8 to 16×16 with 1 to 3 colours, made from a seed by `compare choose`. In each with two colours or more some line would be reduced otherwise if no two blocks might touch. The limits are 128 grids, but 1 in the second class, a depth of 15 and 2,000 steps. Only puzzles were taken on which both
searches are the same, step by step: no mend acted, but for the one that puts the board back after a dead end. The benchmark stops if the answers differ.

## The machine

{machine}"
    )
}
