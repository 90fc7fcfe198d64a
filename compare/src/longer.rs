//! Longer runs beside shorter ones, on pairs from a seed: the same puzzle and depth, and no limit
//! lower. What the shorter run gave must stay.

mod claims;
mod damages;
mod pairs;

use crate::{
    progress::show,
    shrink::{size, smallest},
};
use claims::{judge, Runs, Way, DEAD_END, LISTED, WAYS};
use oracle::puzzle::Puzzle;
use pairs::{pair, Pair, MOST_GRIDS};
use std::time::Instant;

/// Where so many pairs are run or more, each count must have come to `LEAST_SEEN`.
const MANY_PAIRS: usize = 25_000;
const LEAST_SEEN: usize = 20;

/// Something that is counted beside the ways: its name, and the pairs that it is seen in.
type Beside = (&'static str, fn(&Pair, &Runs) -> bool);

/// These are not disjoint.
const BESIDE: [Beside; 20] = [
    ("only the budget raised", |pair, _| {
        raised(pair) == (false, true)
    }),
    ("only the most grids raised", |pair, _| {
        raised(pair) == (true, false)
    }),
    ("both raised", |pair, _| raised(pair) == (true, true)),
    ("neither raised", |pair, _| raised(pair) == (false, false)),
    ("budget 0 in the shorter run", |pair, _| {
        pair.shorter.budget == 0
    }),
    ("most grids 0 in the shorter run", |pair, _| {
        pair.shorter.most_grids == 0
    }),
    ("most grids 128 in the longer run", |pair, _| {
        pair.longer().most_grids == MOST_GRIDS
    }),
    ("more steps", |_, runs| {
        runs.shorter.answer.steps < runs.longer.answer.steps
    }),
    ("a larger deepest", |_, runs| {
        runs.shorter.answer.deepest < runs.longer.answer.deepest
    }),
    ("a narrower board", |_, runs| {
        runs.longer.answer.number == LISTED && runs.shorter.cells != runs.longer.cells
    }),
    ("no limit met", |_, runs| limits(runs) == (0, 0)),
    ("first limit 1, then none", |_, runs| limits(runs) == (1, 0)),
    ("first limit 1, then 2", |_, runs| limits(runs) == (1, 2)),
    ("first limit 1, then 3", |_, runs| limits(runs) == (1, 3)),
    ("first limit 2, then none", |_, runs| limits(runs) == (2, 0)),
    ("first limit 2, then 1", |_, runs| limits(runs) == (2, 1)),
    ("first limit 2, then 3", |_, runs| limits(runs) == (2, 3)),
    ("first limit 1 or 2, the same in both", |_, runs| {
        matches!(limits(runs), (1, 1) | (2, 2))
    }),
    ("first limit 3 in both", |_, runs| limits(runs) == (3, 3)),
    ("a dead end in both, and a limit met", |_, runs| {
        runs.shorter.answer.number == DEAD_END && runs.shorter.answer.limit > 0
    }),
];

/// Which limits are raised: the most grids, and the budget.
fn raised(pair: &Pair) -> (bool, bool) {
    (pair.raise.grids > 0, pair.raise.budget > 0)
}

/// The first limits that were met.
fn limits(runs: &Runs) -> (u8, u8) {
    (runs.shorter.answer.limit, runs.longer.answer.limit)
}

/// What a run has counted.
#[derive(Default)]
struct Counts {
    ways: [usize; WAYS.len()],
    beside: [usize; BESIDE.len()],
}

impl Counts {
    fn add(&mut self, pair: &Pair, runs: &Runs, way: Way) {
        self.ways[way as usize] += 1;
        for (count, (_, is_seen)) in self.beside.iter_mut().zip(BESIDE) {
            *count += usize::from(is_seen(pair, runs));
        }
    }

    /// Each count with its name: the ways, then those beside.
    fn named(&self) -> impl Iterator<Item = (&'static str, usize)> {
        let beside = BESIDE.map(|(name, _)| name);
        let names = WAYS.into_iter().chain(beside);
        names.zip(self.ways.into_iter().chain(self.beside))
    }
}

/// A pair that breaks a claim, in words.
struct Fault {
    number: usize,
    words: String,
    pair: Pair,
}

/// Tries the judge, runs so many pairs, shows how far it is, and prints a summary. It fails where the
/// judge lets a damage pass, where a claim is broken, and where many pairs missed a way or a count.
pub fn run(seed: u64, count: usize) -> Result<(), String> {
    let begun = Instant::now();
    let damages = damages::all_refused(seed)?;
    damages::depth_refused()?;
    let mut counts = Counts::default();
    let mut faults = Vec::new();
    for number in 0..count {
        let pair = pair(seed, number);
        match judged(&pair) {
            Ok((runs, way)) => counts.add(&pair, &runs, way),
            Err(words) => faults.push(Fault {
                number,
                words,
                pair,
            }),
        }
        let (done, wrong) = (number + 1, faults.len());
        show(done, count, || {
            format!("{done} of {count} pairs, {wrong} faults")
        });
    }
    summary(seed, count, &counts, faults.len());
    println!("{damages} damaged pairs: the judge saw each, and said which claim it breaks");
    println!("and it saw that a larger depth alters a list: that of a puzzle of 5x2 cells, at depth 0 and at depth 1");
    eprintln!("{} seconds", begun.elapsed().as_secs());
    no_fault(count, &faults)?;
    all_seen(count, &counts)
}

fn judged(pair: &Pair) -> Result<(Runs, Way), String> {
    let runs = pair.runs()?;
    let way = judge(&runs)?;
    Ok((runs, way))
}

/// Fails with the smallest fault, if there is one.
fn no_fault(count: usize, faults: &[Fault]) -> Result<(), String> {
    let least = faults.iter().min_by_key(|fault| size(&fault.pair.shorter));
    let Some(Fault {
        number,
        words,
        pair,
    }) = least
    else {
        return Ok(());
    };
    println!("the smallest pair that breaks a claim, number {number}:\n{words}");
    let raise = pair.raise;
    let with = |shorter: Puzzle| Pair { shorter, raise };
    let differs = |shorter: &Puzzle| judged(&with(shorter.clone())).is_err();
    print_runs(&with(smallest(&pair.shorter, differs)));
    Err(format!("{} of {count} pairs break a claim", faults.len()))
}

fn print_runs(pair: &Pair) {
    let longer = pair.longer();
    print!("{}", pair.shorter);
    println!(
        "and most grids {}, budget {}, list of {}",
        longer.most_grids, longer.budget, longer.lent
    );
    match pair.runs() {
        Ok(runs) => println!("shorter: {}\nlonger: {}", runs.shorter, runs.longer),
        Err(words) => println!("library: {words}"),
    }
}

/// Fails where many pairs were run and something was seen too seldom.
fn all_seen(count: usize, counts: &Counts) -> Result<(), String> {
    let few = |&(_, seen): &(&str, usize)| count >= MANY_PAIRS && seen < LEAST_SEEN;
    let seldom: Vec<&str> = counts.named().filter(few).map(|(name, _)| name).collect();
    if seldom.is_empty() {
        return Ok(());
    }
    Err(format!(
        "seen less than {LEAST_SEEN} times: {}",
        seldom.join(", ")
    ))
}

fn summary(seed: u64, count: usize, counts: &Counts, faults: usize) {
    println!(
        "seed {seed}, {count} pairs, {faults} in which a longer run alters what a shorter one gave"
    );
    for (at, (name, number)) in counts.named().enumerate() {
        if at == WAYS.len() {
            println!("of these");
        }
        println!("  {number} {name}");
    }
}
