//! Random tables, valid for the most part, and damage to bytes. The same seed gives the same inputs.

/// A small generator of pseudo-random numbers (xorshift).
pub struct Random(u64);

impl Random {
    pub fn new(seed: u64) -> Self {
        Random(seed.wrapping_mul(0x9e37_79b9_7f4a_7c15) | 1)
    }

    pub fn next(&mut self) -> u64 {
        self.0 ^= self.0 << 13;
        self.0 ^= self.0 >> 7;
        self.0 ^= self.0 << 17;
        self.0
    }

    /// A number below a bound above 0.
    pub fn below(&mut self, bound: usize) -> usize {
        (self.next() % bound as u64) as usize
    }

    pub fn chance(&mut self, one_in: usize) -> bool {
        self.below(one_in) == 0
    }

    pub fn pick<T: Copy>(&mut self, from: &[T]) -> T {
        from[self.below(from.len())]
    }
}

/// A table of up to `most` rows that are all within the rules.
pub fn table(random: &mut Random, most: usize) -> Vec<u8> {
    let mut rows: Vec<[u8; 3]> = Vec::new();
    let wanted = random.below(most + 1);
    for _ in 0..4 * wanted {
        if rows.len() == wanted {
            break;
        }
        if let Some(row) = row(random, &rows) {
            if !rows.contains(&row) {
                rows.push(row);
            }
        }
    }
    rows.concat()
}

/// A row that fits those below it, if the kind drawn has any.
fn row(random: &mut Random, rows: &[[u8; 3]]) -> Option<[u8; 3]> {
    let kind = random.pick(&[1, 2, 3, 4, 5, 6, 7, 8, 9, 10, 11, 11, 11, 12, 12, 12, 12]);
    let number = random.below(6) as u8;
    let agents: Vec<u8> = (0..rows.len() as u8)
        .filter(|&r| agent_like(rows[r as usize]))
        .collect();
    let any = |random: &mut Random| {
        (!rows.is_empty()).then(|| near(random, rows.len()) as u8)
    };
    Some(match kind {
        1..=4 | 7 => [kind, number, 0],
        5 => [5, number % 4, 0],
        6 if rows.iter().filter(|r| r[0] == 6).count() < 8 => [6, number, number % 2],
        8 | 9 if !agents.is_empty() => [kind, random.pick(&agents), 0],
        10 if !agents.is_empty() => [10, random.pick(&agents), random.pick(&agents)],
        11 => {
            let left = any(random)?;
            if rows[left as usize][0] == 11 {
                return None;
            }
            [11, left, any(random)?]
        }
        12 => [12, any(random)?, any(random)?],
        _ => return None,
    })
}

/// A number below a bound, often one of the highest: terms grow deep so.
fn near(random: &mut Random, bound: usize) -> usize {
    if random.chance(2) {
        random.below(bound)
    } else {
        bound - 1 - random.below(bound.min(4))
    }
}

fn agent_like(row: [u8; 3]) -> bool {
    matches!(row[0], 1 | 2 | 5) || row[0] == 6 && row[2] == 0
}

/// Some bytes, each below a bound, with a few above it now and then.
pub fn list(random: &mut Random, most: usize, bound: usize) -> Vec<u8> {
    let length = random.below(most + 1);
    let wild = random.chance(8);
    (0..length)
        .map(|_| {
            if wild && random.chance(6) {
                random.below(256) as u8
            } else {
                random.below(bound.max(1)) as u8
            }
        })
        .collect()
}

/// The same bytes with one changed, added or taken away.
pub fn damage(random: &mut Random, bytes: &mut Vec<u8>) {
    let at = random.below(bytes.len() + 1);
    let byte = if random.chance(2) {
        random.below(16) as u8
    } else {
        random.below(256) as u8
    };
    match random.below(4) {
        0 => bytes.insert(at, byte),
        1 if at < bytes.len() => {
            bytes.remove(at);
        }
        2 => bytes.truncate(at),
        _ if at < bytes.len() => bytes[at] = byte,
        _ => bytes.push(byte),
    }
}
