//! The judge is tried: real runs are damaged, and each damage must be refused in the right words.

use super::{
    claims::{judge, Claim, Runs, DEAD_END, LISTED, SOLVED},
    pairs::pair,
};
use crate::library;
use oracle::puzzle::{Outcome, Puzzle, UNTOUCHED};

/// For a damage so many pairs are looked at.
const MOST_PAIRS: usize = 50_000;

/// The undamaged runs that a damage can be done to.
type Fits = fn(&Runs) -> bool;

/// What is done to them.
type Act = fn(&mut Runs);

/// A damage, in words too, and the claim that it breaks.
struct Damage {
    what: String,
    claim: Claim,
    fits: Fits,
    act: Act,
}

impl Damage {
    /// Damages the runs, and fails where the judge does not see it.
    fn try_on(&self, runs: &Runs) -> Result<(), String> {
        let mut damaged = runs.clone();
        (self.act)(&mut damaged);
        refused(&self.what, self.claim, &damaged)
    }
}

/// Fails where the judge does not say of the runs that they break this claim.
fn refused(what: &str, claim: Claim, runs: &Runs) -> Result<(), String> {
    let words = claim.words();
    match judge(runs) {
        Err(said) if said.contains(words) => Ok(()),
        judged => Err(format!(
            "the judge is blind: {what} is judged as {judged:?} and not as \"{words}\"\nshorter: {}\nlonger: {}",
            runs.shorter, runs.longer
        )),
    }
}

/// Does each damage to the first pair of the seed that it fits. The number of damages is given, if
/// every one was refused.
pub fn all_refused(seed: u64) -> Result<usize, String> {
    let mut waiting = damages();
    let all = waiting.len();
    for number in 0..MOST_PAIRS {
        let runs = pair(seed, number).runs();
        let Some(runs) = runs.ok().filter(|runs| judge(runs).is_ok()) else {
            continue;
        };
        let (fitting, others): (Vec<_>, Vec<_>) =
            waiting.into_iter().partition(|damage| (damage.fits)(&runs));
        for damage in &fitting {
            damage.try_on(&runs)?;
        }
        waiting = others;
        if waiting.is_empty() {
            return Ok(all);
        }
    }
    let missed: Vec<String> = waiting.into_iter().map(|damage| damage.what).collect();
    Err(format!("no pair was found for: {}", missed.join(", ")))
}

/// The puzzle of 5 by 2 cells with rows 1 1 and 1 and columns 1, none, 1, none, 1 has another second
/// grid at depth 1 than at depth 0. Nothing is claimed for depth, and the judge must see why.
pub fn depth_refused() -> Result<(), String> {
    let one = || vec![(1, 1)];
    let clues = [
        vec![(1, 1), (1, 1)],
        one(),
        one(),
        vec![],
        one(),
        vec![],
        one(),
    ];
    let puzzle = Puzzle::new(5, 2, 1, &clues, vec![3; 10]);
    let run = |depth| library::run(&puzzle.clone().with_limits(2, depth, 1_000));
    let runs = Runs {
        given: puzzle.cells.clone(),
        shorter: run(0)?,
        longer: run(1)?,
    };
    refused("a larger depth", Claim::Beginning, &runs)
}

/// The runs after which all must be the same, each with the claim that says so.
const STAYING: [(&str, Claim, Fits); 3] = [
    ("a solved answer", Claim::Solved, |runs| {
        runs.shorter.answer.number == SOLVED
    }),
    ("a dead end", Claim::DeadEnd, |runs| {
        runs.shorter.answer.number == DEAD_END
    }),
    ("a list with no limit met", Claim::NoLimit, |runs| {
        runs.shorter.answer.number == LISTED && !met(runs)
    }),
];

/// What is altered in them.
const ALTERED: [(&str, Act); 6] = [
    ("another number", |runs| {
        runs.longer.answer.number = runs.longer.answer.number % DEAD_END + 1;
    }),
    ("another board", |runs| alter(&mut runs.longer.cells[0])),
    ("another count of grids", |runs| {
        runs.longer.answer.grids += 1
    }),
    ("more steps", |runs| runs.longer.answer.steps += 1),
    ("a larger deepest", |runs| runs.longer.answer.deepest += 1),
    ("another limit", |runs| runs.longer.answer.limit ^= 1),
];

/// Damages of one claim each.
const SINGLE: [(&str, Claim, Fits, Act); 19] = [
    ("the shorter run refused", Claim::Accepted, met, |runs| {
        runs.shorter.answer.number = 13
    }),
    ("the longer run refused", Claim::Accepted, met, |runs| {
        runs.longer.answer.number = 13
    }),
    (
        "a byte written after the grids",
        Claim::Stored,
        |runs| stored(runs, 1) && has_room(&runs.shorter),
        |runs| write_last(&mut runs.shorter),
    ),
    (
        "a byte written with no grid stored",
        Claim::Stored,
        |runs| runs.longer.answer.grids == 0 && has_room(&runs.longer),
        |runs| write_last(&mut runs.longer),
    ),
    (
        "a grid counted after a dead end",
        Claim::Stored,
        |runs| runs.longer.answer.number == DEAD_END,
        |runs| runs.longer.answer.grids += 1,
    ),
    (
        "a grid counted and not stored",
        Claim::Stored,
        |runs| both_listed(runs) && has_room(&runs.longer),
        |runs| runs.longer.answer.grids += 1,
    ),
    (
        "another board at a dead end after an empty list",
        Claim::Untouched,
        |runs| runs.shorter.answer.number == LISTED && runs.longer.answer.number == DEAD_END,
        |runs| alter(&mut runs.longer.cells[0]),
    ),
    (
        "a dead end after grids",
        Claim::Listed,
        |runs| stored(runs, 1),
        |runs| {
            runs.longer.list.fill(UNTOUCHED);
            runs.longer.answer.grids = 0;
            runs.longer.answer.number = DEAD_END;
        },
    ),
    ("solved after a list", Claim::Listed, both_listed, |runs| {
        runs.longer.answer.number = SOLVED
    }),
    (
        "two grids of the shorter list exchanged",
        Claim::Beginning,
        |runs| stored(runs, 2),
        |runs| {
            let size = runs.shorter.cells.len();
            runs.shorter.list[..2 * size].rotate_left(size);
        },
    ),
    (
        "a cell of a shorter list altered",
        Claim::Beginning,
        |runs| stored(runs, 1),
        |runs| alter(&mut runs.shorter.list[0]),
    ),
    (
        "the first grid of a longer list dropped",
        Claim::Beginning,
        |runs| stored(runs, 1) && runs.longer.answer.grids > runs.shorter.answer.grids,
        |runs| {
            let size = runs.longer.cells.len();
            runs.longer.list.drain(..size);
            runs.longer.answer.grids -= 1;
        },
    ),
    (
        "the last grid of the same list dropped",
        Claim::Beginning,
        |runs| stored(runs, 1) && runs.longer.answer.grids == runs.shorter.answer.grids,
        |runs| runs.longer.answer.grids -= 1,
    ),
    (
        "a cell of the list with no limit met altered",
        Claim::NoLimit,
        |runs| stored(runs, 1) && !met(runs),
        |runs| alter(&mut runs.longer.list[0]),
    ),
    (
        "a colour added to the longer board",
        Claim::Narrowing,
        |runs| both_listed(runs) && solved_cell(&runs.shorter).is_some(),
        |runs| {
            let at = solved_cell(&runs.shorter).expect("there is a solved cell");
            runs.longer.cells[at] = 3;
        },
    ),
    (
        "fewer steps",
        Claim::Steps,
        |runs| met(runs) && runs.shorter.answer.steps > 0,
        |runs| runs.longer.answer.steps = runs.shorter.answer.steps - 1,
    ),
    (
        "a lower deepest",
        Claim::Deepest,
        |runs| met(runs) && runs.shorter.answer.deepest > 0,
        |runs| runs.longer.answer.deepest = runs.shorter.answer.deepest - 1,
    ),
    (
        "no limit after the depth",
        Claim::DepthLimit,
        |runs| runs.shorter.answer.limit == 3,
        |runs| runs.longer.answer.limit = 0,
    ),
    (
        "another limit after the depth",
        Claim::DepthLimit,
        |runs| runs.shorter.answer.limit == 3,
        |runs| runs.longer.answer.limit = 2,
    ),
];

fn damages() -> Vec<Damage> {
    let staying = STAYING.iter().flat_map(|&(name, claim, fits)| {
        ALTERED.iter().map(move |&(altered, act)| Damage {
            what: format!("{altered} after {name}"),
            claim,
            fits,
            act,
        })
    });
    let single = SINGLE.iter().map(|&(what, claim, fits, act)| Damage {
        what: what.to_string(),
        claim,
        fits,
        act,
    });
    staying.chain(single).collect()
}

/// Puts another colour in place of the cell.
fn alter(cell: &mut u8) {
    *cell = if *cell == 1 { 2 } else { 1 };
}

fn met(runs: &Runs) -> bool {
    runs.shorter.answer.limit > 0
}

fn both_listed(runs: &Runs) -> bool {
    [&runs.shorter, &runs.longer].map(|run| run.answer.number) == [LISTED, LISTED]
}

/// Whether the shorter run stored at least so many grids.
fn stored(runs: &Runs, grids: usize) -> bool {
    runs.shorter.answer.grids >= grids
}

/// Whether the list has room for another grid.
fn has_room(run: &Outcome) -> bool {
    run.list.len() >= (run.answer.grids + 1) * run.cells.len()
}

fn write_last(run: &mut Outcome) {
    *run.list.last_mut().expect("there is room") = 1;
}

/// A cell whose only colour is blank or the first.
fn solved_cell(run: &Outcome) -> Option<usize> {
    run.cells.iter().position(|&cell| cell == 1 || cell == 2)
}
