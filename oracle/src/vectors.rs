//! Writes the vectors: fixed lists of inputs and of all that is expected of them, as decimal numbers.

mod cases;
mod refusals;
mod small;

use std::{fs, path::Path};

use oracle::{
    apart, mended,
    puzzle::{Outcome, Puzzle},
    unmended,
};

/// One case: the numbers of its line, and which of them is the answer.
#[derive(Default)]
struct Row {
    numbers: Vec<u64>,
    answer: u8,
    /// In two colours or more, and not refused: whether it would come to something else if no two blocks might touch.
    touching: Option<bool>,
}

impl Row {
    fn number(&mut self, number: u64) {
        self.numbers.push(number);
    }

    fn size(&mut self, size: usize) {
        self.number(size as u64);
    }

    /// The length, then the bytes.
    fn list(&mut self, bytes: &[u8]) {
        self.size(bytes.len());
        self.numbers.extend(bytes.iter().copied().map(u64::from));
    }

    /// The number given back, 0 where there is none.
    fn answer(&mut self, number: u8) {
        self.number(number.into());
        self.answer = number;
    }

    fn text(&self) -> String {
        let numbers: Vec<_> = self.numbers.iter().map(u64::to_string).collect();
        numbers.join(" ")
    }
}

/// Writes all files into the folder and prints how many cases each has.
pub fn write(folder: &Path) -> Result<(), String> {
    fs::create_dir_all(folder).map_err(|error| error.to_string())?;
    let searches = searched(cases::search_cases());
    let refusals = searched(refusals::refused()?);
    write_file(folder, "search.txt", &rows_of_searches(&searches)?)?;
    write_file(folder, "refusals.txt", &rows_of_searches(&refusals)?)?;
    write_file(folder, "lines.txt", &small::lines())?;
    write_file(folder, "rates.txt", &small::rates())?;
    write_file(folder, "parts.txt", &small::parts())?;
    print_counts(&searches);
    Ok(())
}

/// A puzzle and what the mended search makes of it.
type Search = (Puzzle, Outcome);

fn searched(cases: Vec<Puzzle>) -> Vec<Search> {
    let run = |puzzle: Puzzle| {
        let outcome = puzzle.run(mended::solve);
        (puzzle, outcome)
    };
    cases.into_iter().map(run).collect()
}

fn write_file(folder: &Path, name: &str, rows: &[Row]) -> Result<(), String> {
    let mut text = format!("{}\n", rows.len());
    for row in rows {
        text.push_str(&row.text());
        text.push('\n');
    }
    println!("{name}: {} cases, {} bytes", rows.len(), text.len());
    println!("  by answer: {}", by_answer(rows));
    let coloured: Vec<bool> = rows.iter().filter_map(|row| row.touching).collect();
    if !coloured.is_empty() {
        let touching = coloured.iter().filter(|&&touching| touching).count();
        println!(
            "  in two colours or more: {}, of which {touching} come to something else where no two blocks may touch",
            coloured.len()
        );
        if touching * 3 < coloured.len() {
            return Err(format!(
                "too few cases of {name} show that colours may touch"
            ));
        }
    }
    fs::write(folder.join(name), text).map_err(|error| error.to_string())
}

/// How many rows have each answer.
fn by_answer(rows: &[Row]) -> String {
    let count = |answer: u8| rows.iter().filter(|row| row.answer == answer).count();
    let counts = (0..=20).map(|answer| (answer, count(answer)));
    let shown = counts.filter(|&(_, count)| count > 0);
    let shown: Vec<_> = shown
        .map(|(answer, count)| format!("{answer}: {count}"))
        .collect();
    shown.join(", ")
}

fn rows_of_searches(searches: &[Search]) -> Result<Vec<Row>, String> {
    searches.iter().map(row_of_search).collect()
}

/// The row of a search. Where no mend acted, the published search must say the same.
fn row_of_search((puzzle, outcome): &Search) -> Result<Row, String> {
    let answer = outcome.answer;
    let published = puzzle.run(unmended::solve);
    if answer.mends == 0 && !published.differences(outcome).is_empty() {
        return Err(format!("the builds differ, and no mend acted on\n{puzzle}"));
    }
    let mut row = Row::default();
    row.size(puzzle.w);
    row.size(puzzle.h);
    row.size(puzzle.k);
    row.size(puzzle.most_grids);
    row.size(puzzle.most_depth);
    row.number(puzzle.budget);
    row.list(&puzzle.clues);
    row.list(&puzzle.cells);
    row.size(puzzle.lent);
    row.answer(answer.number);
    row.size(answer.grids);
    row.number(answer.steps);
    row.size(answer.deepest);
    row.number(answer.limit.into());
    row.list(&outcome.cells);
    row.list(&outcome.grids().concat());
    row.number(answer.mends.into());
    row.touching = apart::differs(puzzle, outcome);
    Ok(row)
}

/// How many searches reached the search, met each limit first, and saw each mend act.
fn print_counts(searches: &[Search]) {
    let mut limits = [0; 4];
    let mut mends = [0; 4];
    let mut searched = 0;
    for (_, outcome) in searches {
        let answer = outcome.answer;
        searched += usize::from(outcome.searched());
        limits[usize::from(answer.limit)] += 1;
        for (mend, count) in mends.iter_mut().enumerate() {
            *count += usize::from(answer.mends >> mend & 1);
        }
    }
    println!("of search.txt, {searched} cases reached the search");
    println!("  first limit 0, 1, 2, 3: {limits:?}");
    println!("  M1, M2, M3, M4 acted in: {mends:?}");
}
