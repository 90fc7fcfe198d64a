//! The repository's vectors, replayed: every number, and every lent byte afterwards.

use belutharin::raw;
use std::fs;

/// What a list holds before a run.
const UNTOUCHED: u8 = 165;

/// The numbers of a file, read in order.
struct Numbers(std::vec::IntoIter<u64>);

impl Numbers {
    fn of(file: &str) -> Self {
        let path = format!("{}/../vectors/{file}", env!("CARGO_MANIFEST_DIR"));
        let text = fs::read_to_string(&path).unwrap_or_else(|error| panic!("{path}: {error}"));
        let numbers = text.split_ascii_whitespace();
        let numbers: Vec<u64> = numbers.map(|word| word.parse().expect(word)).collect();
        Self(numbers.into_iter())
    }

    fn long(&mut self) -> u64 {
        self.0.next().expect("the file ends too early")
    }

    fn size(&mut self) -> usize {
        self.long() as usize
    }

    fn byte(&mut self) -> u8 {
        u8::try_from(self.long()).expect("a byte")
    }

    fn bytes(&mut self) -> Vec<u8> {
        (0..self.size()).map(|_| self.byte()).collect()
    }

    /// Runs each case of the file, and sees that nothing is left.
    fn cases(mut self, mut run: impl FnMut(&mut Self, usize)) {
        for case in 0..self.size() {
            run(&mut self, case);
        }
        assert_eq!(self.0.next(), None);
    }
}

fn replay_search(file: &str) {
    Numbers::of(file).cases(|numbers, case| {
        let (w, h, k) = (numbers.size(), numbers.size(), numbers.size());
        let (most_grids, most_depth, budget) = (numbers.size(), numbers.size(), numbers.long());
        let (clues, mut cells) = (numbers.bytes(), numbers.bytes());
        let mut list = vec![UNTOUCHED; numbers.size()];
        let answer = raw::solve(
            w, h, k, &clues, &mut cells, &mut list, most_grids, most_depth, budget,
        );
        let wanted = raw::Answer {
            number: numbers.byte(),
            grids: numbers.size(),
            steps: numbers.long(),
            deepest: numbers.size(),
            limit: numbers.byte(),
        };
        assert_eq!(answer, wanted, "{file}, case {case}");
        assert_eq!(cells, numbers.bytes(), "{file}, case {case}: board");
        let mut wanted = numbers.bytes();
        wanted.resize(list.len(), UNTOUCHED);
        assert_eq!(list, wanted, "{file}, case {case}: list");
        numbers.byte(); // the mends that acted, which are no result
    });
}

/// The longest paths of guesses are among these; the stack is no larger than the library asks for.
#[test]
fn search() {
    let thread = std::thread::Builder::new().stack_size(1 << 20);
    let run = thread.spawn(|| replay_search("search.txt"));
    run.expect("a thread can be had")
        .join()
        .expect("no case fails");
}

#[test]
fn refusals() {
    replay_search("refusals.txt");
}

#[test]
fn lines() {
    Numbers::of("lines.txt").cases(|numbers, case| {
        let (k, clue, mut cells) = (numbers.size(), numbers.bytes(), numbers.bytes());
        let number = raw::reduce_line(k, &clue, &mut cells);
        assert_eq!(number, numbers.byte(), "case {case}");
        assert_eq!(cells, numbers.bytes(), "case {case}: cells");
    });
}

#[test]
fn rates() {
    Numbers::of("rates.txt").cases(|numbers, case| {
        let (number, rate) = raw::rate(numbers.long(), numbers.long());
        let wanted = (numbers.byte(), numbers.long());
        assert_eq!((number, rate.to_bits()), wanted, "case {case}");
    });
}

#[test]
fn parts() {
    Numbers::of("parts.txt").cases(|numbers, case| {
        let list: Vec<u8> = (0..numbers.size()).map(|at| at as u8).collect();
        let (w, h, n, i) = (
            numbers.size(),
            numbers.size(),
            numbers.size(),
            numbers.size(),
        );
        let (number, part) = raw::grid(&list, w, h, n, i);
        assert_eq!(number, numbers.byte(), "case {case}");
        let (start, end) = (numbers.size(), numbers.size());
        assert_eq!(part, &list[start..end], "case {case}: part");
    });
}
