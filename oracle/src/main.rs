//! The oracle's commands: writing vectors, comparing the two builds, and finding small inputs on which they differ.

mod compare;
mod report;
mod vectors;

use std::{env, path::Path, process::ExitCode};

const USAGE: &str = "usage:
  oracle vectors --out FOLDER
  oracle compare --seed SEED --count COUNT
  oracle report";

fn main() -> ExitCode {
    let arguments: Vec<String> = env::args().skip(1).collect();
    let words: Vec<&str> = arguments.iter().map(String::as_str).collect();
    let done = match words[..] {
        ["vectors", "--out", folder] => vectors::write(Path::new(folder)),
        ["compare", "--seed", seed, "--count", count] => match (seed.parse(), count.parse()) {
            (Ok(seed), Ok(count)) => compare::compare(seed, count),
            _ => Err(USAGE.to_string()),
        },
        ["report"] => report::report(),
        _ => Err(USAGE.to_string()),
    };
    match done {
        Ok(()) => ExitCode::SUCCESS,
        Err(message) => {
            eprintln!("{message}");
            ExitCode::FAILURE
        }
    }
}
