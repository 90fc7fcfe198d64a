//! The cases of `lines.txt`, `rates.txt` and `parts.txt`.

use oracle::{
    apart,
    generate::{clue_of_line, edit, random_grid, Random},
    puzzle::{clue_bytes, Clue},
    raw,
};

use super::Row;

const SEED: u64 = 14;
const LINES: usize = 2_400;
const BROKEN_LINES: usize = 200;
const RATES: usize = 240;
const PARTS: usize = 300;

/// Values no size, colour count or limit may have.
const LARGE: [u64; 6] = [17, 255, 257, 4_294_967_295, 4_294_967_297, u64::MAX];

/// Reducing one line: k, clue, cells; number, cells afterwards.
pub fn lines() -> Vec<Row> {
    let mut random = Random::new(SEED);
    let mut rows = worked_lines();
    rows.extend(short_lines());
    rows.extend(short_coloured_lines());
    rows.extend((0..LINES).map(|_| any_line(&mut random)));
    rows.extend(refused_lines());
    rows.extend((0..BROKEN_LINES).map(|_| broken_line(&mut random)));
    rows
}

fn line(k: usize, clue: &[u8], cells: &[u8]) -> Row {
    let mut after = cells.to_vec();
    let number = raw::reduce_line(k, clue, &mut after);
    let mut row = Row::default();
    row.size(k);
    row.list(clue);
    row.list(cells);
    row.answer(number);
    row.list(&after);
    row.touching = apart::line_differs(k, clue, cells);
    row
}

/// The worked lines of docs/RULES.md.
fn worked_lines() -> Vec<Row> {
    vec![
        line(1, &clue_bytes(&[(1, 3)]), &[3; 5]),
        line(1, &clue_bytes(&[(1, 1), (1, 1)]), &[3; 3]),
        line(1, &clue_bytes(&[]), &[3; 3]),
        line(1, &clue_bytes(&[(1, 2)]), &[3]),
        line(2, &clue_bytes(&[(1, 1), (2, 1)]), &[7; 2]),
    ]
}

/// Every line of up to three cells in one colour, with the clues that fit and those that just do not.
fn short_lines() -> Vec<Row> {
    let clues: [&[(u8, u8)]; 10] = [
        &[],
        &[(1, 1)],
        &[(1, 2)],
        &[(1, 3)],
        &[(1, 4)],
        &[(1, 16)],
        &[(1, 1), (1, 1)],
        &[(1, 1), (1, 2)],
        &[(1, 2), (1, 1)],
        &[(1, 1), (1, 1), (1, 1)],
    ];
    let mut rows = Vec::new();
    for length in 1..=3 {
        for number in 0..3_usize.pow(length) {
            let cells: Vec<u8> = (0..length)
                .map(|at| (number / 3_usize.pow(at) % 3) as u8 + 1)
                .collect();
            rows.extend(clues.iter().map(|clue| line(1, &clue_bytes(clue), &cells)));
        }
    }
    rows
}

/// Two or three blocks of one or two cells in two colours, on one to three cells that are open or lack a colour: there is
/// room for all blanks, for those that must be, or for too few.
fn short_coloured_lines() -> Vec<Row> {
    let clues: [&[(u8, u8)]; 7] = [
        &[(1, 1), (1, 1)],
        &[(1, 1), (2, 1)],
        &[(2, 1), (1, 1)],
        &[(1, 2), (2, 1)],
        &[(1, 1), (2, 1), (1, 1)],
        &[(1, 1), (1, 1), (2, 1)],
        &[(1, 1), (2, 1), (2, 1)],
    ];
    let sets = [7, 6, 5, 3];
    let mut rows = Vec::new();
    for length in 1..=3 {
        for number in 0..4_usize.pow(length) {
            let cells: Vec<u8> = (0..length)
                .map(|at| sets[number / 4_usize.pow(at) % 4])
                .collect();
            rows.extend(clues.iter().map(|clue| line(2, &clue_bytes(clue), &cells)));
        }
    }
    rows
}

/// A random line with the clue of what it hides, sometimes edited, and cells that are open, given or wrong.
fn line_parts(random: &mut Random) -> (usize, Clue, Vec<u8>) {
    let k = random.between(1, 3);
    let length = random.between(1, 16);
    let filled = random.pick(&[20, 40, 60, 80]);
    let hidden = random_grid(random, filled, length, 1, k);
    let mut clue = clue_of_line(&hidden);
    if random.percent(15) {
        edit(random, &mut clue, k);
    }
    let all = (1 << (k + 1)) - 1;
    let given = random.pick(&[0, 20, 50, 80]);
    let mut cells = vec![all; length];
    for (cell, colour) in cells.iter_mut().zip(hidden) {
        if random.percent(given) {
            *cell = 1 << colour | random.bits() as u8 & all;
        }
    }
    if random.percent(15) {
        let at = random.below(length);
        cells[at] = random.between(1, usize::from(all)) as u8;
    }
    (k, clue, cells)
}

fn any_line(random: &mut Random) -> Row {
    let (k, clue, cells) = line_parts(random);
    line(k, &clue_bytes(&clue), &cells)
}

/// Lines refused for one thing, at its edge; and clues that are long and not refused.
fn refused_lines() -> Vec<Row> {
    let mut rows = Vec::new();
    let clue = [1, 1, 2];
    for k in [0, 4].into_iter().chain(LARGE) {
        rows.push(line(k as usize, &clue, &[3; 4]));
        rows.push(line(k as usize, &[], &[0; 20]));
    }
    let broken: [&[u8]; 14] = [
        &[],
        &[1],
        &[1, 1],
        &[1, 1, 2, 0],
        &[1, 1, 2, 1, 1],
        &[2, 1, 2],
        &[0, 0],
        &[1, 0, 1],
        &[1, 2, 1],
        &[1, 255, 1],
        &[1, 1, 0],
        &[1, 1, 17],
        &[1, 1, 255],
        &[255, 1, 1],
    ];
    for clue in broken {
        rows.push(line(1, clue, &[3; 4]));
        rows.push(line(1, clue, &[0; 4]));
    }
    for blocks in [16, 17, 255] {
        rows.push(line(1, &clue_bytes(&vec![(1, 1); blocks]), &[3; 16]));
        rows.push(line(3, &clue_bytes(&vec![(3, 16); blocks]), &[15; 16]));
    }
    for count in [0, 17, 18, 32, 256] {
        rows.push(line(1, &clue, &vec![3; count]));
    }
    for (k, set) in [
        (1, 0),
        (1, 4),
        (1, 7),
        (1, 255),
        (2, 8),
        (2, 15),
        (3, 16),
        (3, 128),
    ] {
        rows.push(line(k, &clue, &[set]));
        rows.push(line(k, &clue, &[3, 3, 3, set]));
        rows.push(line(k, &clue, &[set, 3, 3, 3]));
    }
    rows
}

/// A line with a byte or a length changed at random, which may or may not be refused.
fn broken_line(random: &mut Random) -> Row {
    let (mut k, clue, mut cells) = line_parts(random);
    let mut bytes = clue_bytes(&clue);
    for _ in 0..random.between(1, 2) {
        match random.below(5) {
            0 => k = random.between(0, 4),
            1 => bytes.truncate(random.below(bytes.len() + 1)),
            2 => bytes.push(random.between(0, 3) as u8),
            3 if !cells.is_empty() => {
                let at = random.below(cells.len());
                cells[at] = random.below(20) as u8;
            }
            _ => cells.truncate(random.below(cells.len() + 1)),
        }
    }
    line(k, &bytes, &cells)
}

/// The rate: max, min; number (0 for none), bits of the f64.
pub fn rates() -> Vec<Row> {
    let mut random = Random::new(SEED);
    let mut pairs: Vec<(u64, u64)> = Vec::new();
    for max in 0..=15 {
        pairs.extend((0..=max).map(|min| (max, min)));
    }
    for _ in 0..RATES {
        let max = random.between(16, 255);
        pairs.push((max as u64, random.below(max + 1) as u64));
    }
    pairs.extend([
        (255, 0),
        (255, 1),
        (255, 127),
        (255, 128),
        (255, 254),
        (255, 255),
    ]);
    pairs.extend([
        (0, 1),
        (1, 2),
        (14, 15),
        (254, 255),
        (255, 256),
        (256, 0),
        (256, 255),
        (256, 256),
        (257, 1),
    ]);
    for large in [4_294_967_295, 4_294_967_296, 4_294_967_300, u64::MAX] {
        pairs.extend([(large, 0), (0, large), (large, large), (255, large)]);
    }
    pairs.into_iter().map(|(max, min)| rate(max, min)).collect()
}

fn rate(max: u64, min: u64) -> Row {
    let (number, rate) = raw::rate(max, min);
    let mut row = Row::default();
    row.number(max);
    row.number(min);
    row.answer(number);
    row.number(rate.to_bits());
    row
}

/// Handing out a grid: length of the list, w, h, n, i; number (0 for none), start and end of the part.
pub fn parts() -> Vec<Row> {
    let mut random = Random::new(SEED);
    let mut rows = Vec::new();
    for size in [0].into_iter().chain(LARGE) {
        let size = size as usize;
        rows.extend([
            part(100, size, 2, 1, 0),
            part(100, 2, size, 1, 0),
            part(0, size, size, 9, 9),
        ]);
    }
    for n in LARGE.map(|n| n as usize) {
        rows.extend([
            part(64, 2, 2, n, 0),
            part(64, 2, 2, n, n),
            part(64, 2, 2, 16, n),
        ]);
    }
    for i in 0..=17 {
        rows.extend([
            part(64, 2, 2, 16, i),
            part(63, 2, 2, 16, i),
            part(65, 2, 2, 16, i),
        ]);
    }
    for n in 0..=2 {
        rows.extend([
            part(0, 1, 1, n, 0),
            part(1, 1, 1, n, 0),
            part(1, 1, 1, n, 1),
        ]);
    }
    rows.extend([
        part(32_768, 16, 16, 128, 127),
        part(32_767, 16, 16, 128, 127),
        part(32_768, 16, 16, 128, 128),
    ]);
    for _ in 0..PARTS {
        let (w, h) = (random.between(1, 16), random.between(1, 16));
        let n = random.between(0, 12);
        let i = random.between(0, n);
        let length = (n * w * h + random.below(3)).saturating_sub(random.below(2));
        rows.push(part(length, w, h, n, i));
    }
    rows
}

fn part(length: usize, w: usize, h: usize, n: usize, i: usize) -> Row {
    let list = vec![0; length];
    let (number, part) = raw::grid(&list, w, h, n, i);
    let start = if number == 0 { i * w * h } else { 0 };
    assert!(core::ptr::eq(part, &list[start..start + part.len()]) || part.is_empty());
    let mut row = Row::default();
    for size in [length, w, h, n, i] {
        row.size(size);
    }
    row.answer(number);
    row.size(start);
    row.size(start + part.len());
    row
}
