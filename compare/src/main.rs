//! The library beside the original: differential runs, and the benchmark; and beside itself: longer runs and shorter ones.

mod benchmark;
mod cases;
mod differences;
mod library;
mod longer;
mod machine;
mod progress;
mod set;
mod shrink;

use std::{env, path::Path, process::ExitCode};

const USAGE: &str = "usage:
  compare differences --seed SEED --count COUNT
  compare longer --seed SEED --count COUNT
  compare benchmark --set FILE --out FILE
  compare profile --set FILE --class NAME --turns TURNS
  compare choose --out FILE";

fn main() -> ExitCode {
    let arguments: Vec<String> = env::args().skip(1).collect();
    let words: Vec<&str> = arguments.iter().map(String::as_str).collect();
    let done = match words[..] {
        ["differences", "--seed", seed, "--count", count] => seeded(differences::run, seed, count),
        ["longer", "--seed", seed, "--count", count] => seeded(longer::run, seed, count),
        ["benchmark", "--set", set, "--out", out] => benchmark::run(Path::new(set), Path::new(out)),
        ["profile", "--set", set, "--class", class, "--turns", turns] => match turns.parse() {
            Ok(turns) => benchmark::profile(Path::new(set), class, turns),
            _ => Err(USAGE.to_string()),
        },
        ["choose", "--out", out] => set::choose(Path::new(out)),
        _ => Err(USAGE.to_string()),
    };
    match done {
        Ok(()) => ExitCode::SUCCESS,
        Err(message) => {
            eprintln!("{message}");
            ExitCode::FAILURE
        }
    }
}

/// Runs what takes a seed and a count.
fn seeded(
    run: fn(u64, usize) -> Result<(), String>,
    seed: &str,
    count: &str,
) -> Result<(), String> {
    match (seed.parse(), count.parse()) {
        (Ok(seed), Ok(count)) => run(seed, count),
        _ => Err(USAGE.to_string()),
    }
}
