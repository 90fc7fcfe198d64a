//! A puzzle with its limits, a run of it, and how both are shown to a person.

use crate::{
    block::ColouredBlock,
    fmt,
    raw::{clues_of, keeps_layout, Answer},
};

/// A clue as pairs of colour and length.
pub type Clue = Vec<(u8, u8)>;

/// The bytes of one clue: a count, then the pairs.
pub fn clue_bytes(clue: &[(u8, u8)]) -> Vec<u8> {
    let pairs = clue.iter().flat_map(|&(colour, length)| [colour, length]);
    core::iter::once(clue.len() as u8).chain(pairs).collect()
}

fn all_clue_bytes(clues: &[Clue]) -> Vec<u8> {
    clues.iter().flat_map(|clue| clue_bytes(clue)).collect()
}

/// One input to the search. The list is lent with every byte set to `UNTOUCHED`.
#[derive(Clone, Debug, PartialEq, Eq)]
pub struct Puzzle {
    pub w: usize,
    pub h: usize,
    pub k: usize,
    pub most_grids: usize,
    pub most_depth: usize,
    pub budget: u64,
    pub clues: Vec<u8>,
    pub cells: Vec<u8>,
    pub lent: usize,
}

/// The byte that a list is filled with before it is lent: no cell has this value.
pub const UNTOUCHED: u8 = 165;

/// What a run leaves behind: the answer, the board and the whole list.
#[derive(Clone, Debug, PartialEq, Eq)]
pub struct Outcome {
    pub answer: Answer,
    pub cells: Vec<u8>,
    pub list: Vec<u8>,
}

/// A search over bytes: `mended::solve`, `unmended::solve`, or one that is compared with them.
pub type Solve = fn(usize, usize, usize, &[u8], &mut [u8], &mut [u8], usize, usize, u64) -> Answer;

impl Puzzle {
    /// The puzzle with limits that let nothing be stored; `with_limits` sets them.
    pub fn new(w: usize, h: usize, k: usize, clues: &[Clue], cells: Vec<u8>) -> Self {
        Self {
            w,
            h,
            k,
            most_grids: 0,
            most_depth: 0,
            budget: 0,
            clues: all_clue_bytes(clues),
            cells,
            lent: 0,
        }
    }

    /// The puzzle with these limits and a list that is exactly long enough.
    pub fn with_limits(self, most_grids: usize, most_depth: usize, budget: u64) -> Self {
        Self {
            most_grids,
            most_depth,
            budget,
            lent: most_grids * self.w * self.h,
            ..self
        }
    }

    pub fn set_clues(&mut self, clues: &[Clue]) {
        self.clues = all_clue_bytes(clues);
    }

    /// The clues of an accepted puzzle: rows, then columns.
    pub fn clue_list(&self) -> Vec<Clue> {
        let pair = |block: &ColouredBlock| (block.colour, block.length);
        let clues = clues_of(&self.clues);
        clues
            .iter()
            .map(|clue| clue.iter().map(pair).collect())
            .collect()
    }

    /// The puzzle with these clues and cells, and all else as it is.
    fn redrawn(&self, w: usize, h: usize, clues: &[Clue], cells: Vec<u8>) -> Self {
        let redrawn = Self::new(w, h, self.k, clues, cells);
        Self {
            lent: self.lent,
            ..redrawn.with_limits(self.most_grids, self.most_depth, self.budget)
        }
    }

    /// The accepted puzzle with left and right exchanged.
    pub fn mirrored(&self) -> Self {
        let mut clues = self.clue_list();
        let (rows, columns) = clues.split_at_mut(self.h);
        rows.iter_mut().for_each(|clue| clue.reverse());
        columns.reverse();
        let rows = self.cells.chunks_exact(self.w);
        let cells = rows.flat_map(|row| row.iter().rev().copied()).collect();
        self.redrawn(self.w, self.h, &clues, cells)
    }

    /// The accepted puzzle with rows and columns exchanged.
    pub fn transposed(&self) -> Self {
        let mut clues = self.clue_list();
        clues.rotate_left(self.h);
        let column = |x: usize| self.cells[x..].iter().step_by(self.w).copied();
        let cells = (0..self.w).flat_map(column).collect();
        self.redrawn(self.h, self.w, &clues, cells)
    }

    pub fn run(&self, solve: Solve) -> Outcome {
        let mut cells = self.cells.clone();
        let mut list = vec![UNTOUCHED; self.lent];
        let answer = solve(
            self.w,
            self.h,
            self.k,
            &self.clues,
            &mut cells,
            &mut list,
            self.most_grids,
            self.most_depth,
            self.budget,
        );
        Outcome {
            answer,
            cells,
            list,
        }
    }
}

impl Outcome {
    /// Whether the search at depth 0 was begun.
    pub fn searched(&self) -> bool {
        self.answer.deepest > 0 || self.answer.limit > 0
    }

    /// What another run of the same puzzle gives back differently, whatever mends acted.
    pub fn differences(&self, other: &Self) -> Vec<String> {
        let (a, b) = (self.answer, other.answer);
        let numbers = [
            ("answer", u64::from(a.number), u64::from(b.number)),
            ("grids", a.grids as u64, b.grids as u64),
            ("steps", a.steps, b.steps),
            ("deepest", a.deepest as u64, b.deepest as u64),
            ("limit", u64::from(a.limit), u64::from(b.limit)),
        ];
        let mut found: Vec<_> = numbers
            .iter()
            .filter(|(_, a, b)| a != b)
            .map(|(name, a, b)| format!("{name} {a} became {b}"))
            .collect();
        if self.cells != other.cells {
            found.push("board".to_string());
        }
        if self.list != other.list {
            found.push("list".to_string());
        }
        found
    }

    /// The grids that the list holds.
    pub fn grids(&self) -> Vec<&[u8]> {
        if self.answer.number != 2 {
            return Vec::new();
        }
        let size = self.cells.len();
        self.list
            .chunks_exact(size)
            .take(self.answer.grids)
            .collect()
    }
}

/// One line for each row, with its clue as colour:length and the sets of its cells, then one for each column.
impl fmt::Display for Puzzle {
    fn fmt(&self, f: &mut fmt::Formatter<'_>) -> fmt::Result {
        let Self { w, h, k, .. } = *self;
        writeln!(
            f,
            "{w}x{h}, k = {k}, most grids {}, depth {}, budget {}, list of {}",
            self.most_grids, self.most_depth, self.budget, self.lent
        )?;
        if !keeps_layout(&self.clues, w, h, k) || self.cells.len() != w * h {
            return writeln!(f, "clue bytes {:?}, cells {:?}", self.clues, self.cells);
        }
        for (line, clue) in self.clue_list().iter().enumerate() {
            let block = |(colour, length): &(u8, u8)| format!("{colour}:{length}");
            let blocks = clue.iter().map(block).collect::<Vec<_>>().join(" ");
            if line < h {
                let cells = &self.cells[line * w..(line + 1) * w];
                writeln!(f, "row {line} [{blocks}], cells {cells:?}")?;
            } else {
                writeln!(f, "column {} [{blocks}]", line - h)?;
            }
        }
        Ok(())
    }
}

impl fmt::Display for Outcome {
    fn fmt(&self, f: &mut fmt::Formatter<'_>) -> fmt::Result {
        let Answer {
            number,
            grids,
            steps,
            deepest,
            limit,
            ..
        } = self.answer;
        write!(
            f,
            "answer {number}, grids {grids}, steps {steps}, deepest {deepest}, limit {limit}, board {:?}",
            self.cells
        )?;
        for grid in self.grids() {
            write!(f, ", grid {grid:?}")?;
        }
        Ok(())
    }
}
