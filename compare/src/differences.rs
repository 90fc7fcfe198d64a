//! The library against both oracles, on cases from a seed.

use crate::{
    cases::{case, Case, KINDS},
    library,
    progress::show,
    shrink::{size, smallest},
};
use oracle::{
    apart, mended,
    puzzle::{Outcome, Puzzle},
    raw, unmended,
};
use std::time::Instant;

/// What a run has counted.
#[derive(Default)]
struct Counts {
    kinds: [usize; KINDS.len()],
    /// Searches by answer: solved, listed, dead end, refused.
    answers: [usize; 4],
    searched: usize,
    /// Searches and lines in two colours or more that are not refused.
    coloured: [Coloured; 2],
    /// Searches that differ from the unmended oracle, each with a mend that acted, and those in which each mend acted.
    from_unmended: usize,
    by_mend: [usize; 4],
    /// The smallest of these for each mend.
    least: [Option<Puzzle>; 4],
}

/// How many cases there are, and in how many of them it matters that blocks of different colours may touch.
#[derive(Default)]
struct Coloured {
    all: usize,
    touching: usize,
}

impl Coloured {
    fn count(&mut self, touching: Option<bool>) {
        self.all += usize::from(touching.is_some());
        self.touching += usize::from(touching == Some(true));
    }
}

/// A case on which the library is not as it should be, in words; with the puzzle where it is one.
struct Fault {
    number: usize,
    words: String,
    puzzle: Option<Box<Puzzle>>,
}

/// Runs so many cases, shows how far it is, and prints a summary. It fails where the library differs from the mended oracle, or from the unmended
/// one although no mend acted.
pub fn run(seed: u64, count: usize) -> Result<(), String> {
    let begun = Instant::now();
    let mut counts = Counts::default();
    let mut faults = Vec::new();
    for number in 0..count {
        let (kind, case) = case(seed, number);
        counts.kinds[kind] += 1;
        if let Err((words, puzzle)) = compare(&case, &mut counts) {
            faults.push(Fault {
                number,
                words,
                puzzle,
            });
        }
        let (done, wrong, mended) = (number + 1, faults.len(), counts.from_unmended);
        show(done, count, || {
            format!("{done} of {count} cases, {wrong} faults, {mended} differ from the unmended oracle by a mend")
        });
    }
    let seconds = begun.elapsed().as_secs();
    summary(seed, count, &counts, faults.len());
    for (mend, least) in counts.least.iter().enumerate() {
        if let Some(puzzle) = least {
            println!("a small difference in which M{} acted:", mend + 1);
            print_runs(&smallest(puzzle, |puzzle| is_mended(puzzle, mend)));
        }
    }
    eprintln!("{seconds} seconds");
    if faults.is_empty() {
        return Ok(());
    }
    let key = |fault: &&Fault| fault.puzzle.as_deref().map(size);
    let first = faults.iter().min_by_key(key).expect("there is a fault");
    println!("the smallest case that differs, number {}:", first.number);
    println!("{}", first.words);
    if let Some(puzzle) = &first.puzzle {
        print_runs(&smallest(puzzle, is_fault));
    }
    Err(format!("{} of {count} cases differ", faults.len()))
}

type Differs = (String, Option<Box<Puzzle>>);

/// Compares one case with both oracles, lent bytes too.
fn compare(case: &Case, counts: &mut Counts) -> Result<(), Differs> {
    match case {
        Case::Search(puzzle) => search(puzzle, counts),
        Case::Line { k, clue, cells } => {
            counts.coloured[1].count(apart::line_differs(*k, clue, cells));
            let wanted = {
                let mut after = cells.clone();
                let number = raw::reduce_line(*k, clue, &mut after);
                Ok((number, after))
            };
            let got = library::reduce_line(*k, clue, cells);
            let words = || {
                format!("line: k = {k}, clue {clue:?}, cells {cells:?}: library {got:?}, oracle {wanted:?}")
            };
            same(got == wanted, words)
        }
        &Case::Rate { max, min } => {
            let bits = |(number, rate): (u8, f64)| (number, rate.to_bits());
            let got = bits(belutharin::raw::rate(max, min));
            let wanted = bits(raw::rate(max, min));
            let words = || format!("rate of {max} and {min}: library {got:?}, oracle {wanted:?}");
            same(got == wanted, words)
        }
        &Case::Part { length, w, h, n, i } => {
            let list: Vec<u8> = (0..length).map(|at| at as u8).collect();
            let place = |(number, part): (u8, &[u8])| {
                let start = part.as_ptr() as usize - list.as_ptr() as usize;
                (number, if part.is_empty() { 0 } else { start }, part.len())
            };
            let got = place(belutharin::raw::grid(&list, w, h, n, i));
            // An empty part of the oracle's need not lie in the list.
            let (number, part) = raw::grid(&list, w, h, n, i);
            let wanted = if part.is_empty() {
                (number, 0, 0)
            } else {
                place((number, part))
            };
            let words = || {
                format!("grid {i} of {n}, {w}x{h}, in a list of {length}: library {got:?}, oracle {wanted:?}")
            };
            same(got == wanted, words)
        }
    }
}

fn same(is: bool, words: impl FnOnce() -> String) -> Result<(), Differs> {
    if is {
        Ok(())
    } else {
        Err((words(), None))
    }
}

fn search(puzzle: &Puzzle, counts: &mut Counts) -> Result<(), Differs> {
    let Judged { mended, verdict } = judge(puzzle);
    let answer = usize::from(mended.answer.number);
    counts.answers[if answer > 3 { 3 } else { answer - 1 }] += 1;
    counts.searched += usize::from(mended.searched());
    counts.coloured[0].count(apart::differs(puzzle, &mended));
    match verdict {
        Verdict::Same => (),
        Verdict::Fault(words) => return Err((words, Some(Box::new(puzzle.clone())))),
        Verdict::Mended => {
            counts.from_unmended += 1;
            for mend in (0..4).filter(|mend| mended.answer.mends >> mend & 1 == 1) {
                counts.by_mend[mend] += 1;
                let least = &mut counts.least[mend];
                if least
                    .as_ref()
                    .is_none_or(|least| size(puzzle) < size(least))
                {
                    *least = Some(puzzle.clone());
                }
            }
        }
    }
    Ok(())
}

/// How the library's run stands to the oracles'.
enum Verdict {
    /// All three are alike.
    Same,
    /// It is the mended oracle's, and not the unmended one's, and a mend acted.
    Mended,
    /// It is not the mended oracle's, or not the unmended one's although no mend acted.
    Fault(String),
}

struct Judged {
    mended: Outcome,
    verdict: Verdict,
}

/// Runs the puzzle three times and compares every number and every lent byte.
fn judge(puzzle: &Puzzle) -> Judged {
    let mended = puzzle.run(mended::solve);
    let verdict = match library::run(puzzle) {
        Err(words) => Verdict::Fault(words),
        Ok(ran) => {
            let from_mended = mended.differences(&ran).join(", ");
            let from_unmended = puzzle.run(unmended::solve).differences(&ran).join(", ");
            if !from_mended.is_empty() {
                Verdict::Fault(format!("from the mended oracle: {from_mended}"))
            } else if from_unmended.is_empty() {
                Verdict::Same
            } else if mended.answer.mends == 0 {
                Verdict::Fault(format!(
                    "from the unmended oracle, and no mend acted: {from_unmended}"
                ))
            } else {
                Verdict::Mended
            }
        }
    };
    Judged { mended, verdict }
}

fn is_fault(puzzle: &Puzzle) -> bool {
    matches!(judge(puzzle).verdict, Verdict::Fault(_))
}

/// Whether it differs from the unmended oracle's, and this mend acted.
fn is_mended(puzzle: &Puzzle, mend: usize) -> bool {
    let Judged { mended, verdict } = judge(puzzle);
    matches!(verdict, Verdict::Mended) && mended.answer.mends >> mend & 1 == 1
}

fn print_runs(puzzle: &Puzzle) {
    print!("{puzzle}");
    let show = |name: &str, outcome: &Outcome| println!("{name}: {outcome}");
    match library::run(puzzle) {
        Ok(ran) => show("library", &ran),
        Err(words) => println!("library: {words}"),
    }
    show("mended oracle", &puzzle.run(mended::solve));
    show("unmended oracle", &puzzle.run(unmended::solve));
}

fn summary(seed: u64, count: usize, counts: &Counts, faults: usize) {
    println!(
        "seed {seed}, {count} cases, {faults} faults: where the library differs from the mended oracle, or from the unmended one although no mend acted"
    );
    for (name, number) in KINDS.iter().zip(counts.kinds) {
        println!("  {number} {name}");
    }
    let [solved, listed, dead, refused] = counts.answers;
    println!(
        "searches: {} reached depth 0; {solved} solved, {listed} listed, {dead} dead ends, {refused} refused",
        counts.searched
    );
    for (name, coloured) in ["searches", "lines"].iter().zip(&counts.coloured) {
        println!(
            "{name} in two colours or more: {}, of which {} come to something else where no two blocks may touch",
            coloured.all, coloured.touching
        );
    }
    let [m1, m2, m3, m4] = counts.by_mend;
    println!(
        "{} differ from the unmended oracle, each with a mend that acted: M1 in {m1}, M2 in {m2}, M3 in {m3}, M4 in {m4}",
        counts.from_unmended
    );
}
