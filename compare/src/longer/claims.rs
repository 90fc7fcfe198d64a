//! What a longer run must keep of a shorter one, told from what the two leave behind.

use oracle::puzzle::{Outcome, UNTOUCHED};

pub const SOLVED: u8 = 1;
pub const LISTED: u8 = 2;
pub const DEAD_END: u8 = 3;

/// The board that was given, and what two runs of one puzzle at one depth leave behind; no limit of
/// the longer one is lower.
#[derive(Clone)]
pub struct Runs {
    pub given: Vec<u8>,
    pub shorter: Outcome,
    pub longer: Outcome,
}

/// What is claimed of two such runs.
#[derive(Clone, Copy, Debug, PartialEq, Eq)]
pub enum Claim {
    Accepted,
    Stored,
    Untouched,
    Solved,
    DeadEnd,
    Listed,
    Beginning,
    Narrowing,
    Steps,
    Deepest,
    NoLimit,
    DepthLimit,
}

const CLAIMS: [Claim; 12] = [
    Claim::Accepted,
    Claim::Stored,
    Claim::Untouched,
    Claim::Solved,
    Claim::DeadEnd,
    Claim::Listed,
    Claim::Beginning,
    Claim::Narrowing,
    Claim::Steps,
    Claim::Deepest,
    Claim::NoLimit,
    Claim::DepthLimit,
];

impl Claim {
    /// What is said of runs that break it.
    pub fn words(self) -> &'static str {
        match self {
            Self::Accepted => "an accepted input was refused",
            Self::Stored => "a list does not hold the grids counted, or was written after them",
            Self::Untouched => "a dead end left another board than was given",
            Self::Solved => "a solved answer did not stay as it was",
            Self::DeadEnd => "a dead end did not stay as it was",
            Self::Listed => "after a list came neither a list nor, with no grid stored, a dead end",
            Self::Beginning => "the shorter run's grids are not the beginning of the longer run's",
            Self::Narrowing => "the longer run's board is no narrowing of the shorter one's",
            Self::Steps => "the steps fell",
            Self::Deepest => "the deepest fell",
            Self::NoLimit => "no limit was met, and yet the longer run is another",
            Self::DepthLimit => "the first limit was the depth, and is not in the longer run",
        }
    }

    fn holds(self, runs: &Runs) -> bool {
        let Runs {
            shorter, longer, ..
        } = runs;
        let (before, after) = (shorter.answer, longer.answer);
        match self {
            Self::Accepted => is_answer(before.number) && is_answer(after.number),
            Self::Stored => holds_its_grids(shorter) && holds_its_grids(longer),
            Self::Untouched => [shorter, longer]
                .iter()
                .all(|run| run.answer.number != DEAD_END || run.cells == runs.given),
            Self::Solved => before.number != SOLVED || same(shorter, longer),
            Self::DeadEnd => before.number != DEAD_END || same(shorter, longer),
            Self::Listed => match after.number {
                LISTED => true,
                DEAD_END => shorter.grids().is_empty(),
                _ => before.number != LISTED,
            },
            Self::Beginning => longer.grids().starts_with(&shorter.grids()),
            Self::Narrowing => {
                (before.number, after.number) != (LISTED, LISTED) || narrowed(shorter, longer)
            }
            Self::Steps => before.steps <= after.steps,
            Self::Deepest => before.deepest <= after.deepest,
            Self::NoLimit => before.limit != 0 || same(shorter, longer),
            Self::DepthLimit => before.limit != 3 || after.limit == 3,
        }
    }
}

fn is_answer(number: u8) -> bool {
    (SOLVED..=DEAD_END).contains(&number)
}

/// Whether as many grids are in the list as are counted, each with its cells solved, and every byte
/// after them is untouched. After any answer but a list there is no grid.
fn holds_its_grids(run: &Outcome) -> bool {
    let grids = run.grids();
    let solved = |cell: &u8| cell.count_ones() == 1;
    let after = &run.list[grids.len() * run.cells.len()..];
    grids.len() == run.answer.grids
        && grids.iter().all(|grid| grid.iter().all(solved))
        && after.iter().all(|&byte| byte == UNTOUCHED)
}

/// Whether all that was given is the same: the number, the board, the grids and the counts.
fn same(shorter: &Outcome, longer: &Outcome) -> bool {
    shorter.answer == longer.answer
        && shorter.cells == longer.cells
        && shorter.grids() == longer.grids()
}

/// Whether no cell has a colour that it had not.
fn narrowed(shorter: &Outcome, longer: &Outcome) -> bool {
    let mut cells = shorter.cells.iter().zip(&longer.cells);
    shorter.cells.len() == longer.cells.len() && cells.all(|(before, after)| after & !before == 0)
}

/// How a pair can end. Each pair that keeps the claims ends in one of these ways.
#[derive(Clone, Copy, Debug, PartialEq, Eq)]
pub enum Way {
    Solved,
    DeadBefore,
    DeadInSearch,
    AllListed,
    LongerList,
    SameList,
    EmptyThenGrids,
    EmptyThenEmpty,
    EmptyThenDead,
}

/// The ways in their order, as the summary names them.
pub const WAYS: [&str; 9] = [
    "solved",
    "a dead end before the search",
    "a dead end in the search",
    "listed with no limit met: all the same",
    "a limit met: grids, then more grids",
    "a limit met: grids, then the same grids",
    "a limit met: no grid, then grids",
    "a limit met: no grid, then no grid",
    "a limit met: no grid, then a dead end",
];

/// The way in which the runs end, or in words the claims that they break.
pub fn judge(runs: &Runs) -> Result<Way, String> {
    let broken = CLAIMS.iter().filter(|claim| !claim.holds(runs));
    let words: Vec<&str> = broken.map(|claim| claim.words()).collect();
    if words.is_empty() {
        Ok(way(runs))
    } else {
        Err(words.join("; "))
    }
}

/// The way of runs that keep the claims.
fn way(
    Runs {
        shorter, longer, ..
    }: &Runs,
) -> Way {
    let (before, after) = (shorter.answer, longer.answer);
    match before.number {
        SOLVED => Way::Solved,
        DEAD_END if shorter.searched() => Way::DeadInSearch,
        DEAD_END => Way::DeadBefore,
        _ if before.limit == 0 => Way::AllListed,
        _ if before.grids > 0 && after.grids > before.grids => Way::LongerList,
        _ if before.grids > 0 => Way::SameList,
        _ if after.number == DEAD_END => Way::EmptyThenDead,
        _ if after.grids > 0 => Way::EmptyThenGrids,
        _ => Way::EmptyThenEmpty,
    }
}
