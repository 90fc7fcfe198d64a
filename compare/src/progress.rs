//! How far a run is, told on standard error.

use std::io::{stderr, IsTerminal, Write};

/// Shows how far the run is: on a terminal in one line that is written anew, and elsewhere ten times.
pub fn show(done: usize, count: usize, text: impl FnOnce() -> String) {
    let terminal = stderr().is_terminal();
    let every = if terminal { 100 } else { (count / 10).max(1) };
    if !done.is_multiple_of(every) && done != count {
        return;
    }
    if terminal {
        eprint!("\r{}{}", text(), if done == count { "\n" } else { "" });
        let _ = stderr().flush();
    } else {
        eprintln!("{}", text());
    }
}
