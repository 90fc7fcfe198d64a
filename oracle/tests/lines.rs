//! Line reduction against every line that there is, tried one by one.

use oracle::{generate::Random, raw};

/// Whether a line of colour numbers is the clue's blocks in order, all else blank, with a blank between neighbours of one colour.
fn meets(line: &[u8], clue: &[(u8, u8)]) -> bool {
    let Some((&(colour, length), blocks)) = clue.split_first() else {
        return line.iter().all(|&cell| cell == 0);
    };
    match line.split_first() {
        None => false,
        Some((0, rest)) => meets(rest, clue),
        Some(_) => {
            let Some((block, rest)) = line.split_at_checked(length.into()) else {
                return false;
            };
            let alike = blocks.first().is_some_and(|next| next.0 == colour);
            let parted = !alike || rest.first() == Some(&0);
            block.iter().all(|&cell| cell == colour) && parted && meets(rest, blocks)
        }
    }
}

/// The reduced cells, or nothing if no line fits.
fn reduced(cells: &[u8], clue: &[(u8, u8)]) -> Option<Vec<u8>> {
    let mut kept = vec![0; cells.len()];
    let mut line = Vec::new();
    try_all(cells, clue, &mut line, &mut kept);
    (kept[0] != 0).then_some(kept)
}

fn try_all(cells: &[u8], clue: &[(u8, u8)], line: &mut Vec<u8>, kept: &mut [u8]) {
    if line.len() == cells.len() {
        if meets(line, clue) {
            for (set, colour) in kept.iter_mut().zip(line) {
                *set |= 1 << *colour;
            }
        }
        return;
    }
    let set = cells[line.len()];
    for colour in (0..4).filter(|colour| set >> colour & 1 == 1) {
        line.push(colour);
        try_all(cells, clue, line, kept);
        line.pop();
    }
}

fn bytes(clue: &[(u8, u8)]) -> Vec<u8> {
    let pairs = clue.iter().flat_map(|&(colour, length)| [colour, length]);
    core::iter::once(clue.len() as u8).chain(pairs).collect()
}

fn compare(k: usize, clue: &[(u8, u8)], cells: &[u8]) {
    let mut after = cells.to_vec();
    let number = raw::reduce_line(k, &bytes(clue), &mut after);
    match reduced(cells, clue) {
        Some(kept) => assert_eq!((number, after), (1, kept), "{clue:?} on {cells:?}"),
        None => assert_eq!(
            (number, after),
            (3, cells.to_vec()),
            "{clue:?} on {cells:?}"
        ),
    }
}

#[test]
fn every_short_line() {
    let mut clues: Vec<Vec<(u8, u8)>> = vec![vec![]];
    let mut from = 0;
    for _ in 0..3 {
        let upto = clues.len();
        for at in from..upto {
            for (colour, length) in [(1, 1), (1, 2), (1, 3), (2, 1), (2, 2)] {
                let longer = [clues[at].as_slice(), &[(colour, length)]].concat();
                clues.push(longer);
            }
        }
        from = upto;
    }
    for length in 1..=4 {
        for number in 0..7_usize.pow(length) {
            let cells: Vec<u8> = (0..length)
                .map(|at| (number / 7_usize.pow(at) % 7) as u8 + 1)
                .collect();
            for clue in &clues {
                compare(2, clue, &cells);
            }
        }
    }
}

#[test]
fn random_lines() {
    let mut random = Random::new(3);
    for _ in 0..20_000 {
        let k = random.between(1, 3);
        let length = random.between(1, [16, 10, 8][k - 1]);
        let line: Vec<u8> = (0..length)
            .map(|_| {
                if random.percent(50) {
                    0
                } else {
                    random.between(1, k) as u8
                }
            })
            .collect();
        let mut clue: Vec<(u8, u8)> = line
            .chunk_by(|a, b| a == b)
            .filter(|run| run[0] != 0)
            .map(|run| (run[0], run.len() as u8))
            .collect();
        if random.percent(20) && clue.len() < 16 {
            clue.push((random.between(1, k) as u8, random.between(1, 16) as u8));
        }
        let all = (1 << (k + 1)) - 1;
        let cells: Vec<u8> = line
            .iter()
            .map(|&colour| match random.below(20) {
                0 => random.between(1, usize::from(all)) as u8,
                1..=6 => 1 << colour | random.bits() as u8 & all,
                _ => all,
            })
            .collect();
        compare(k, &clue, &cells);
    }
}
