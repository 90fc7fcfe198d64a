//! Inputs that the rules refuse, made from accepted ones: a way to break each thing that is tested.

use crate::{generate::Random, puzzle::Puzzle};

/// A change to an accepted puzzle after which it is refused.
pub type Damage = fn(&mut Random, &mut Puzzle);

/// The numbers from 11 to 16, each with the damage that it refuses.
pub const DAMAGES: [(u8, Damage); 6] = [
    (11, break_size),
    (12, break_colours),
    (13, break_limits),
    (14, break_clues),
    (15, break_cells),
    (16, break_list),
];

/// A number above the largest one allowed, often one that looks allowed when its upper bits are lost.
fn too_large(random: &mut Random, largest: u64) -> u64 {
    let allowed = random.below(largest as usize + 1) as u64;
    random.pick(&[
        largest + 1,
        largest + 1,
        allowed + (1 << 32),
        4_294_967_295,
        allowed + (1 << 63),
        u64::MAX,
    ])
}

/// The same for numbers whose largest is far below a byte's.
fn too_large_byte(random: &mut Random, largest: u64) -> u64 {
    let allowed = random.below(largest as usize + 1) as u64;
    let larger = [
        255,
        allowed + (1 << 8),
        allowed + (1 << 16),
        too_large(random, largest),
    ];
    random.pick(&larger)
}

fn break_size(random: &mut Random, puzzle: &mut Puzzle) {
    let which = random.below(3);
    if which != 0 {
        puzzle.w = too_large_byte(random, 16) as usize * usize::from(random.percent(80));
    }
    if which != 1 {
        puzzle.h = too_large_byte(random, 16) as usize * usize::from(random.percent(80));
    }
}

fn break_colours(random: &mut Random, puzzle: &mut Puzzle) {
    puzzle.k = too_large_byte(random, 3) as usize * usize::from(random.percent(80));
}

fn break_limits(random: &mut Random, puzzle: &mut Puzzle) {
    match random.below(3) {
        0 => puzzle.most_grids = too_large_byte(random, 128) as usize,
        1 => puzzle.most_depth = too_large_byte(random, 15) as usize,
        _ => puzzle.budget = too_large(random, 1_000_000_000),
    }
}

fn break_clues(random: &mut Random, puzzle: &mut Puzzle) {
    match random.below(10) {
        0 => puzzle.clues.clear(),
        1 => puzzle.clues.truncate(puzzle.clues.len() - 1),
        2 => puzzle.clues.push(0),
        3 => puzzle.clues.extend([1, 1, 1]),
        4 => puzzle.clues[0] = random.pick(&[17, 100, 255]),
        _ => break_block(random, puzzle),
    }
}

/// Gives one line too many blocks, or one block a colour or length that it can't have.
fn break_block(random: &mut Random, puzzle: &mut Puzzle) {
    let mut clues = puzzle.clue_list();
    let above = puzzle.k as u8 + 1;
    let line = random.below(clues.len());
    let clue = &mut clues[line];
    if clue.is_empty() || random.percent(20) {
        clue.resize(random.between(17, 20), (1, 1));
    } else {
        let at = random.below(clue.len());
        match random.below(2) {
            0 => clue[at].0 = random.pick(&[0, above, 255]),
            _ => clue[at].1 = random.pick(&[0, 17, 255]),
        }
    }
    puzzle.set_clues(&clues);
}

fn break_cells(random: &mut Random, puzzle: &mut Puzzle) {
    let above = 1 << (puzzle.k + 1);
    let at = random.below(puzzle.cells.len());
    match random.below(6) {
        0 => puzzle.cells.clear(),
        1 => puzzle.cells.truncate(puzzle.cells.len() - 1),
        2 => puzzle.cells.push(1),
        3 => puzzle.cells[at] = 0,
        _ => puzzle.cells[at] = random.pick(&[above, above | 1, 128, 255]),
    }
}

fn break_list(random: &mut Random, puzzle: &mut Puzzle) {
    puzzle.most_grids = puzzle.most_grids.max(1);
    let needed = puzzle.most_grids * puzzle.w * puzzle.h;
    puzzle.lent = random.pick(&[0, needed / 2, needed - 1, needed - 1]);
}
