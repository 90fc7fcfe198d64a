//! The mended search against the rules written out on their own, in the order of docs/RULES.md and with no word of the original.

use oracle::{
    generate::{any_limits, Random},
    mended,
    puzzle::{Puzzle, UNTOUCHED},
    raw::{reduce_line, Answer},
};

type Cells = Vec<u8>;
type Guess = (usize, u8);

/// A popped cell, and how many cells each of its colours newly solves.
type Note = (usize, Vec<(u8, usize)>);

struct Run<'a> {
    puzzle: &'a Puzzle,
    clues: Vec<&'a [u8]>,
    stored: Vec<Cells>,
    steps: u64,
    deepest: usize,
    limit: u8,
}

fn solved(cell: u8) -> bool {
    cell.count_ones() == 1
}

fn all_solved(board: &[u8]) -> bool {
    board.iter().all(|&cell| solved(cell))
}

fn colours(cell: u8) -> Vec<u8> {
    (0..4).filter(|colour| cell >> colour & 1 == 1).collect()
}

fn newly_solved(before: &[u8], after: &[u8]) -> Vec<usize> {
    (0..before.len())
        .filter(|&cell| !solved(before[cell]) && solved(after[cell]))
        .collect()
}

/// Each cell once, with its priority.
#[derive(Clone, Default)]
struct Queue(Vec<(usize, f64)>);

impl Queue {
    fn push(&mut self, cell: usize, priority: f64) {
        self.0.retain(|entry| entry.0 != cell);
        self.0.push((cell, priority));
    }

    fn pop(&mut self) -> Option<usize> {
        let highest = self
            .0
            .iter()
            .map(|entry| entry.1)
            .fold(f64::NEG_INFINITY, f64::max);
        let cell = self
            .0
            .iter()
            .filter(|entry| entry.1 == highest)
            .map(|entry| entry.0)
            .min()?;
        self.0.retain(|entry| entry.0 != cell);
        Some(cell)
    }
}

impl<'a> Run<'a> {
    fn new(puzzle: &'a Puzzle) -> Self {
        let mut clues = Vec::new();
        let mut rest = &puzzle.clues[..];
        while !rest.is_empty() {
            let (clue, after) = rest.split_at(1 + 2 * usize::from(rest[0]));
            clues.push(clue);
            rest = after;
        }
        Self {
            puzzle,
            clues,
            stored: Vec::new(),
            steps: 0,
            deepest: 0,
            limit: 0,
        }
    }

    /// The cells of a line: rows, then columns.
    fn places(&self, line: usize) -> Vec<usize> {
        let Puzzle { w, h, .. } = *self.puzzle;
        if line < h {
            (0..w).map(|x| line * w + x).collect()
        } else {
            (0..h).map(|y| y * w + line - h).collect()
        }
    }

    fn line(&self, board: &[u8], line: usize) -> Cells {
        self.places(line).iter().map(|&cell| board[cell]).collect()
    }

    /// The last pending line first: the order does not matter.
    fn propagate(&self, board: &[u8], cell: usize) -> Option<Cells> {
        let Puzzle { w, h, k, .. } = *self.puzzle;
        let mut board = board.to_vec();
        let mut pending = vec![cell / w, h + cell % w];
        while let Some(line) = pending.pop() {
            let mut reduced = self.line(&board, line);
            if reduce_line(k, self.clues[line], &mut reduced) != 1 {
                return None;
            }
            for (at, &cell) in self.places(line).iter().enumerate() {
                if board[cell] != reduced[at] {
                    board[cell] = reduced[at];
                    let crossing = if line < h { h + cell % w } else { cell / w };
                    if !pending.contains(&crossing) {
                        pending.push(crossing);
                    }
                }
            }
        }
        Some(board)
    }

    /// A solved line that reduces meets its clue.
    fn passes(&self, board: &[u8]) -> bool {
        let meets =
            |line| reduce_line(self.puzzle.k, self.clues[line], &mut self.line(board, line)) == 1;
        (0..self.clues.len()).all(meets)
    }

    fn unsolved_neighbours(&self, board: &[u8], cell: usize) -> Vec<usize> {
        let Puzzle { w, h, .. } = *self.puzzle;
        let (x, y) = (cell % w, cell / w);
        let mut cells = Vec::new();
        if y > 0 {
            cells.push(cell - w);
        }
        if x > 0 {
            cells.push(cell - 1);
        }
        if x + 1 < w {
            cells.push(cell + 1);
        }
        if y + 1 < h {
            cells.push(cell + w);
        }
        cells.retain(|&cell| !solved(board[cell]));
        cells
    }

    fn starting_queue(&self, board: &[u8]) -> Queue {
        let Puzzle { w, h, .. } = *self.puzzle;
        let rate = |line| {
            let cells = self.line(board, line);
            cells.iter().filter(|&&cell| solved(cell)).count() as f64 / cells.len() as f64
        };
        let mut queue = Queue::default();
        for cell in (0..w * h).filter(|&cell| !solved(board[cell])) {
            let unsolved = self.unsolved_neighbours(board, cell).len();
            queue.push(
                cell,
                ((4 - unsolved) as f64 + rate(cell / w)) + rate(h + cell % w),
            );
        }
        queue
    }

    fn push_neighbours(&self, board: &[u8], cell: usize, newly: &[usize], queue: &mut Queue) {
        for &new in newly {
            for neighbour in self.unsolved_neighbours(board, new) {
                queue.push(neighbour, 10.0);
            }
        }
        for neighbour in self.unsolved_neighbours(board, cell) {
            queue.push(neighbour, 20.0);
        }
    }

    /// The board and the notes, or nothing after a contradiction.
    fn probing(&mut self, board: Cells, mut queue: Queue) -> Option<(Cells, Vec<Note>)> {
        let mut board = board;
        'round: loop {
            let mut notes = Vec::new();
            if all_solved(&board) {
                return Some((board, notes));
            }
            while let Some(cell) = queue.pop() {
                let mut solves = Vec::new();
                let mut contradicting = Vec::new();
                for colour in colours(board[cell]) {
                    self.steps += 1;
                    let mut assumed = board.clone();
                    assumed[cell] = 1 << colour;
                    match self.propagate(&assumed, cell) {
                        Some(after) => solves.push((colour, newly_solved(&assumed, &after).len())),
                        None => contradicting.push(colour),
                    }
                }
                if contradicting.is_empty() {
                    notes.push((cell, solves));
                    continue;
                }
                for colour in contradicting {
                    board[cell] &= !(1 << colour);
                }
                if board[cell] == 0 {
                    return None;
                }
                let after = self.propagate(&board, cell)?;
                self.push_neighbours(&after, cell, &newly_solved(&board, &after), &mut queue);
                board = after;
                continue 'round;
            }
            return Some((board, notes));
        }
    }

    fn choose(board: &[u8], mut notes: Vec<Note>) -> Vec<Guess> {
        let rate = |note: &Note| {
            let max = note.1.iter().map(|solve| solve.1).max().unwrap();
            let min = note.1.iter().map(|solve| solve.1).min().unwrap();
            (max as f64 / (min + 1) as f64).sqrt() + min as f64
        };
        notes.retain(|note| !solved(board[note.0]));
        notes.sort_by(|a, b| rate(b).total_cmp(&rate(a)).then(a.0.cmp(&b.0)));
        let mut guesses = Vec::new();
        for (cell, mut solves) in notes {
            solves.sort_by(|a, b| b.1.cmp(&a.1).then(a.0.cmp(&b.0)));
            guesses.extend(solves.iter().map(|solve| (cell, solve.0)));
        }
        guesses
    }

    /// Asks the limits; the first one ever met is noted.
    fn limits(&mut self, depth: usize) -> bool {
        let met = if self.stored.len() >= self.puzzle.most_grids {
            1
        } else if self.steps >= self.puzzle.budget {
            2
        } else if depth > self.puzzle.most_depth {
            3
        } else {
            return false;
        };
        if self.limit == 0 {
            self.limit = met;
        }
        true
    }

    /// Checks and stores a solved board; false is a dead end.
    fn store(&mut self, board: &[u8]) -> bool {
        if !self.passes(board) {
            return false;
        }
        if !self.stored.iter().any(|grid| grid == board) {
            self.stored.push(board.to_vec());
        }
        true
    }

    /// M3: new guesses for a node that has none left, unless a limit is met or a cell is closed.
    fn refill(&mut self, board: &[u8], not_dead: &[Guess], depth: usize) -> Vec<Guess> {
        let closed = |cell: usize| {
            let guessed = |&colour: &u8| not_dead.contains(&(cell, colour));
            colours(board[cell]).iter().all(guessed)
        };
        if self.limits(depth) || all_solved(board) || (0..board.len()).any(closed) {
            return Vec::new();
        }
        let first = (0..board.len()).find(|&cell| !solved(board[cell])).unwrap();
        let ascending = colours(board[first]).into_iter();
        ascending.rev().map(|colour| (first, colour)).collect()
    }

    /// A node: false if it is dead. The board keeps its deductions; below depth 0 the caller does not look at them.
    fn search(&mut self, board: &mut Cells, guesses: Vec<Guess>, depth: usize) -> bool {
        if self.limits(depth) {
            return true;
        }
        self.deepest = self.deepest.max(depth + 1);
        let mut waiting: Vec<Guess> = guesses.into_iter().rev().collect();
        let mut not_dead: Vec<Guess> = Vec::new();
        let mut probed = false;
        loop {
            if waiting.is_empty() {
                waiting = self.refill(board, &not_dead, depth);
            }
            let Some((cell, colour)) = waiting.pop() else {
                return true;
            };
            if self.limits(depth) {
                return true;
            }
            let alone = solved(board[cell]);
            if board[cell] >> colour & 1 == 0 || alone && probed {
                continue;
            }
            if !alone && self.guess(board.clone(), (cell, colour), depth + 1) {
                not_dead.push((cell, colour));
                continue;
            }
            if !alone {
                board[cell] &= !(1 << colour);
            }
            if board[cell] == 0 || !self.probe_node(board) {
                return false;
            }
            probed = true;
            if all_solved(board) {
                return self.store(board);
            }
            for other in colours(board[cell]) {
                if !alone && other != colour && !waiting.contains(&(cell, other)) {
                    waiting.push((cell, other));
                }
            }
        }
    }

    /// Probes a node's board from a fresh starting queue; false is a contradiction.
    fn probe_node(&mut self, board: &mut Cells) -> bool {
        let queue = self.starting_queue(board);
        match self.probing(board.clone(), queue) {
            Some((after, _)) => {
                *board = after;
                true
            }
            None => false,
        }
    }

    /// A guess, at its own depth: false if it is dead.
    fn guess(&mut self, board: Cells, (cell, colour): Guess, depth: usize) -> bool {
        let mut queue = self.starting_queue(&board);
        self.steps += 1;
        let mut guessed = board;
        guessed[cell] = 1 << colour;
        let Some(after) = self.propagate(&guessed, cell) else {
            return false;
        };
        if all_solved(&after) && !self.store(&after) {
            return false;
        }
        self.push_neighbours(&after, cell, &newly_solved(&guessed, &after), &mut queue);
        if self.limits(depth) {
            return true;
        }
        let Some((mut after, notes)) = self.probing(after, queue) else {
            return false;
        };
        if all_solved(&after) && !self.store(&after) {
            return false;
        }
        if self.limits(depth) || all_solved(&after) {
            return true;
        }
        let guesses = Self::choose(&after, notes);
        self.search(&mut after, guesses, depth)
    }

    /// The answer's number and the board left behind.
    fn whole(&mut self) -> (u8, Cells) {
        let given = self.puzzle.cells.clone();
        let as_solved = |run: &Self, board: Cells| {
            if run.passes(&board) {
                (1, board)
            } else {
                (3, given.clone())
            }
        };
        if all_solved(&given) {
            return as_solved(self, given.clone());
        }
        let queue = self.starting_queue(&given);
        let first = self.probing(given.clone(), queue);
        self.steps = 0;
        let Some((mut board, notes)) = first else {
            return (3, given);
        };
        if all_solved(&board) {
            return as_solved(self, board);
        }
        let guesses = Self::choose(&board, notes);
        if self.search(&mut board, guesses, 0) {
            (2, board)
        } else {
            (3, given)
        }
    }
}

/// Compares everything that a run gives back.
fn compare(puzzle: &Puzzle) {
    let outcome = puzzle.run(mended::solve);
    let mut run = Run::new(puzzle);
    let (number, cells) = run.whole();
    let answer = Answer {
        number,
        grids: run.stored.len(),
        steps: run.steps,
        deepest: run.deepest,
        limit: run.limit,
        mends: outcome.answer.mends,
    };
    let mut list = vec![UNTOUCHED; puzzle.lent];
    if number == 2 {
        list.splice(..run.stored.len() * cells.len(), run.stored.concat());
    }
    let ruled = (answer, cells, list);
    assert_eq!(
        (outcome.answer, outcome.cells, outcome.list),
        ruled,
        "{puzzle}"
    );
}

#[test]
fn small_boards() {
    let mut random = Random::new(17);
    for _ in 0..4_000 {
        compare(&any_limits(&mut random, 6));
    }
}

#[test]
fn boards_of_every_size() {
    let mut random = Random::new(18);
    for _ in 0..100 {
        compare(&any_limits(&mut random, 16));
    }
}

/// The numbers of a line, taken one after the other.
struct Numbers<'a>(std::str::SplitWhitespace<'a>);

impl Numbers<'_> {
    fn number(&mut self) -> u64 {
        self.0.next().unwrap().parse().unwrap()
    }

    fn size(&mut self) -> usize {
        self.number() as usize
    }

    fn list(&mut self) -> Vec<u8> {
        (0..self.size()).map(|_| self.number() as u8).collect()
    }
}

/// The puzzle of a line of `search.txt`, and the mends that acted on it.
fn committed(line: &str) -> (Puzzle, u8) {
    let mut numbers = Numbers(line.split_whitespace());
    let puzzle = Puzzle {
        w: numbers.size(),
        h: numbers.size(),
        k: numbers.size(),
        most_grids: numbers.size(),
        most_depth: numbers.size(),
        budget: numbers.number(),
        clues: numbers.list(),
        cells: numbers.list(),
        lent: numbers.size(),
    };
    (puzzle, numbers.0.next_back().unwrap().parse().unwrap())
}

#[test]
fn committed_boards() {
    let file = concat!(env!("CARGO_MANIFEST_DIR"), "/../vectors/search.txt");
    let text = std::fs::read_to_string(file).expect("the vectors are committed");
    let mut acted = [0; 4];
    for line in text.lines().skip(1) {
        let (puzzle, mends) = committed(line);
        compare(&puzzle);
        for (mend, count) in acted.iter_mut().enumerate() {
            *count += usize::from(mends >> mend & 1);
        }
    }
    assert!(acted.iter().all(|&count| count > 50), "{acted:?}");
}
