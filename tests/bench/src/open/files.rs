//! Files for Open: small ones from the cases, full ones of 96 rows, and both with damage.
use super::{open, ACCEPTED};
use library::random::{damage, Random};

/// The accepted files of the cases, whatever is asked of them.
pub fn seeds() -> Vec<Vec<u8>> {
    include_str!("../../../cases/base.txt")
        .lines()
        .filter_map(|line| match line.split(' ').collect::<Vec<_>>()[..] {
            ["0", "open" | "replay" | "search", file, ..] => bytes(file),
            _ => None,
        })
        .filter(|file| open(file) == ACCEPTED)
        .collect()
}

fn bytes(digits: &str) -> Option<Vec<u8>> {
    (0..digits.len()).step_by(2).map(|i| u8::from_str_radix(digits.get(i..i + 2)?, 16).ok()).collect()
}

/// Accepted files: the seeds in turn, and damage that does no harm.
pub fn valid(random: &mut Random, seeds: &[Vec<u8>], count: usize) -> Vec<Vec<u8>> {
    (0..count)
        .map(|i| {
            let seed = &seeds[i % seeds.len()];
            let changed = changed(random, seed);
            if open(&changed) == ACCEPTED {
                changed
            } else {
                seed.clone()
            }
        })
        .collect()
}

/// Refused files, each a seed with damage that does harm.
pub fn damaged(random: &mut Random, seeds: &[Vec<u8>], count: usize) -> Vec<Vec<u8>> {
    (0..count)
        .map(|i| loop {
            let changed = changed(random, &seeds[i % seeds.len()]);
            if open(&changed) != ACCEPTED {
                break changed;
            }
        })
        .collect()
}

/// A seed with one byte changed in place, which mostly keeps the blocks, or with any damage.
fn changed(random: &mut Random, seed: &[u8]) -> Vec<u8> {
    let mut file = seed.to_vec();
    if random.chance(4) {
        damage(random, &mut file);
    } else {
        // Past the version, which is judged at once, and the budget, which may be any.
        let at = 5 + random.below(file.len() - 5);
        let bound = random.pick(&[16, 96]);
        file[at] = random.below(bound) as u8;
    }
    file
}

/// A full file that is accepted: 96 rows, four roles of eight reads, four runs.
pub fn full(random: &mut Random) -> Vec<u8> {
    let table = full_table(random);
    let known: Vec<u8> = (0..ATOMS as u8).filter(|&r| table[3 * usize::from(r)] != 6).collect();
    let mut roles: Vec<Vec<[u8; 4]>> = vec![vec![]; 4];
    for own in 0..4 {
        for i in 0..8 {
            roles[own].push([0; 4]);
            for tries in 0.. {
                // Two roles read layer after layer, two begin with the deepest rows.
                let row = if own < 2 { ATOMS + LAYER * i + random.below(LAYER) } else { 95 - random.below(LAYER * (i + 1)) };
                let row = if tries < 40 { row } else { random.pick(&known).into() };
                // A read that has something to tell, if one is found: its term is not derivable, so no claim has it.
                roles[own][i] = [2, 0, 0, row as u8];
                let new = open(&file(&table, &known, &roles)) != ACCEPTED;
                roles[own][i] = [1, (8 * own + i) as u8, random.below(4) as u8, row as u8];
                if (new || tries >= 30) && open(&file(&table, &known, &roles)) == ACCEPTED {
                    break;
                }
            }
        }
    }
    file(&table, &known, &roles)
}

const ATOMS: usize = 24;
const LAYER: usize = 9;

/// Names, constants, keys and eight variables, then eight layers of pairs and encryptions. A layer shares the rows just below
/// and has a variable of its own.
fn full_table(random: &mut Random) -> Vec<u8> {
    let mut rows: Vec<[u8; 3]> = (0..8).map(|v| [6, v, u8::from(v < 6)]).collect();
    rows.extend([[1, 0, 0], [1, 1, 0], [2, 0, 0], [5, 0, 0], [5, 1, 0], [5, 2, 0], [5, 3, 0], [3, 0, 0], [4, 0, 0], [7, 0, 0]]);
    rows.extend([[8, 11, 0], [9, 11, 0], [8, 12, 0], [9, 12, 0], [10, 11, 12], [10, 12, 11]]);
    while rows.len() < 96 {
        let n = rows.len();
        let part = |random: &mut Random| match random.below(8) {
            0 | 1 => (n - ATOMS) / LAYER,
            2 => random.below(n),
            _ => n - 1 - random.below(6),
        };
        let (left, right) = (part(random), part(random));
        let key = if random.chance(8) { right } else { ATOMS - 1 - random.below(6) };
        let pair = random.chance(2) && rows[left][0] != 11;
        let row = if pair { [11, left as u8, right as u8] } else { [12, left as u8, key as u8] };
        if !rows.contains(&row) {
            rows.push(row);
        }
    }
    rows.concat()
}

/// A file of four runs in which every role knows the same rows.
fn file(table: &[u8], known: &[u8], roles: &[Vec<[u8; 4]>]) -> Vec<u8> {
    let mut records = vec![];
    for events in roles {
        records.push(known.len() as u8);
        records.extend(known);
        records.push(events.len() as u8);
        records.extend(events.concat());
    }
    let runs = [0, 8, 9, 10, 8, 1, 9, 8, 10, 8, 2, 10, 8, 9, 8, 3, 8, 8, 8, 9];
    let mut file = vec![1, 0, 0, 0, 100];
    for block in [table, &records, &runs, &[8, 9, 10, 15, 16]] {
        file.extend((block.len() as u16).to_be_bytes());
        file.extend(block);
    }
    file
}
