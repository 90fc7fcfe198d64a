//! The search as published against the mended one, on puzzles from a seed.

use oracle::{
    generate::{any_limits, Random},
    mended,
    puzzle::{Outcome, Puzzle},
    unmended,
};

/// What a comparison has counted.
#[derive(Default)]
struct Counts {
    searched: usize,
    differ: usize,
    /// Cases in which each mend acted, and those of them in which the builds differ.
    acted: [usize; 4],
    differ_by: [usize; 4],
}

/// Runs both builds on this many puzzles and prints where they differ. A difference in which no mend acted is an error.
pub fn compare(seed: u64, count: usize) -> Result<(), String> {
    let mut random = Random::new(seed);
    let mut counts = Counts::default();
    for case in 0..count {
        let longest = random.pick(&[4, 6, 6, 6, 9, 16]);
        let puzzle = any_limits(&mut random, longest);
        let published = puzzle.run(unmended::solve);
        let mended = puzzle.run(mended::solve);
        counts.searched += usize::from(mended.searched());
        let mends = mended.answer.mends;
        let differences = published.differences(&mended);
        for mend in (0..4).filter(|mend| mends >> mend & 1 == 1) {
            counts.acted[mend] += 1;
            counts.differ_by[mend] += usize::from(!differences.is_empty());
        }
        if differences.is_empty() {
            continue;
        }
        counts.differ += 1;
        let Puzzle { w, h, k, .. } = puzzle;
        let (mends_by_name, found) = (names(mends), differences.join(", "));
        println!("case {case}, {w}x{h}, k = {k}: {mends_by_name}: {found}");
        if mends == 0 {
            return Err(unexplained(&puzzle, &published, &mended));
        }
    }
    println!(
        "seed {seed}: {count} puzzles, {} searched, {} differ, each with a mend that acted",
        counts.searched, counts.differ
    );
    for mend in 0..4 {
        println!(
            "M{} acted in {}, of which {} differ",
            mend + 1,
            counts.acted[mend],
            counts.differ_by[mend]
        );
    }
    Ok(())
}

fn unexplained(puzzle: &Puzzle, published: &Outcome, mended: &Outcome) -> String {
    format!("no mend acted, and yet the builds differ on\n{puzzle}as published: {published}\nmended: {mended}")
}

/// The mends of a bit mask by name.
fn names(mends: u8) -> String {
    let name = |mend| format!("M{}", mend + 1);
    let names: Vec<_> = (0..4)
        .filter(|mend| mends >> mend & 1 == 1)
        .map(name)
        .collect();
    names.join(" ")
}
