//! Open: a scenario file's checks over marks.
mod files;
mod lines;
mod readable;

use crate::knowledge;
#[cfg(test)]
pub use lines::groups;
pub use lines::run;
use readable::{Notes, RoleLevel};

pub const ACCEPTED: u64 = 4 << 60;

// What may lie beneath a row.
const ROLE_NAME: u8 = 1;
const VARIABLE: u8 = 2;
const LOCAL_CONSTANT: u8 = 4;

pub type Refusal = (u64, usize);

/// The packed answer: accepted, or the first refusal and its place.
pub fn open(file: &[u8]) -> u64 {
    match judge(file) {
        Ok(()) => ACCEPTED,
        Err((number, place)) => knowledge::refusal(number, place),
    }
}

pub fn judge(file: &[u8]) -> Result<(), Refusal> {
    if file.first() != Some(&1) {
        return Err((1, 0));
    }
    if file.len() > 4096 {
        return Err((2, 4096));
    }
    let [terms, roles, runs, known] = blocks(file).ok_or((3, file.len()))?;
    let n = knowledge::check(terms.bytes, terms.place)?;
    let table = Table { bytes: terms.bytes, n, beneath: beneath(terms.bytes) };
    let present = judge_roles(&table, roles)?;
    // Judged on every row, used or not, once all records stand.
    if let Some(r) = (0..n).find(|&r| table.kind(r) == 5 && table.left(r) >= present) {
        return Err((6, terms.place + 3 * r));
    }
    judge_events(&table, roles)?;
    judge_runs(&table, present, runs)?;
    judge_known(&table, known)
}

/// A part of the file and the place of its first byte.
#[derive(Clone, Copy)]
pub struct Block<'a> {
    pub place: usize,
    pub bytes: &'a [u8],
}

/// The four blocks, if they fill the file exactly.
pub fn blocks(file: &[u8]) -> Option<[Block<'_>; 4]> {
    let mut blocks = [Block { place: 0, bytes: &[] }; 4];
    let mut place = 5;
    for block in &mut blocks {
        let length = file.get(place..place + 2)?;
        let length = usize::from(length[0]) << 8 | usize::from(length[1]);
        place += 2;
        *block = Block { place, bytes: file.get(place..place + length)? };
        place += length;
    }
    (place == file.len()).then_some(blocks)
}

struct Table<'a> {
    bytes: &'a [u8],
    n: usize,
    beneath: [u8; 96],
}

impl Table<'_> {
    fn kind(&self, r: usize) -> u8 {
        self.bytes[3 * r]
    }

    fn left(&self, r: usize) -> usize {
        self.bytes[3 * r + 1].into()
    }

    fn right(&self, r: usize) -> usize {
        self.bytes[3 * r + 2].into()
    }

    /// Whether the row is present with nothing of the given sort beneath.
    fn free_of(&self, r: u8, sorts: u8) -> bool {
        usize::from(r) < self.n && self.beneath[usize::from(r)] & sorts == 0
    }
}

/// What lies beneath each row of a good table: references go down, so one pass upwards is enough.
fn beneath(t: &[u8]) -> [u8; 96] {
    let mut beneath = [0; 96];
    for (r, row) in t.chunks_exact(3).enumerate() {
        let (left, right) = (usize::from(row[1]), usize::from(row[2]));
        beneath[r] = match row[0] {
            5 => ROLE_NAME,
            6 => VARIABLE,
            7 => LOCAL_CONSTANT,
            8 | 9 => beneath[left],
            10..=12 => beneath[left] | beneath[right],
            _ => 0,
        };
    }
    beneath
}

#[derive(Clone, Copy)]
pub struct Role<'a> {
    pub known: &'a [u8],
    pub events: &'a [u8],
}

/// The role at the front, if its record is complete.
fn role(bytes: &[u8]) -> Option<Role<'_>> {
    let first = 2 + usize::from(*bytes.first()?);
    let count = usize::from(*bytes.get(first - 1)?);
    Some(Role { known: &bytes[1..first - 1], events: bytes.get(first..first + 4 * count)? })
}

/// Every record that begins in the block, with its place. Counts alone tell where; an incomplete one takes all that is left.
pub fn records(block: Block<'_>) -> impl Iterator<Item = (usize, Option<Role<'_>>)> {
    let mut at = 0;
    std::iter::from_fn(move || {
        let rest = &block.bytes[at..];
        if rest.is_empty() {
            return None;
        }
        let place = block.place + at;
        let role = role(rest);
        at += role.map_or(rest.len(), |role| 2 + role.known.len() + role.events.len());
        Some((place, role))
    })
}

/// How many roles there are, or refusal 6 at the first record against the rules.
fn judge_roles(table: &Table, block: Block) -> Result<usize, Refusal> {
    // A peer is present if its record begins, so they are counted before any is judged.
    let present = records(block).take(4).count();
    for (i, (place, role)) in records(block).enumerate() {
        if i >= 4 || !role.is_some_and(|role| stands(table, present, role)) {
            return Err((6, place));
        }
    }
    Ok(present)
}

fn stands(table: &Table, present: usize, role: Role) -> bool {
    role.events.len() <= 32
        && role.known.windows(2).all(|pair| pair[0] < pair[1])
        && role.known.iter().all(|&r| table.free_of(r, VARIABLE))
        && role.events.chunks_exact(4).all(|event| {
            let peer_stands = match event[0] {
                0 | 1 => usize::from(event[2]) < present,
                2 => event[2] == 0,
                _ => false,
            };
            peer_stands && usize::from(event[3]) < table.n
        })
}

/// Refusal 7, at the first event in role order that is not well formed.
fn judge_events(table: &Table, block: Block) -> Result<(), Refusal> {
    let level = RoleLevel::new(table);
    let mut notes = Notes::new();
    for (own, (place, role)) in records(block).enumerate() {
        let Some(role) = role else { continue };
        if let Some(event) = level.ill_formed(&mut notes, own, role) {
            return Err((7, place + 2 + role.known.len() + 4 * event));
        }
    }
    Ok(())
}

/// Refusal 8, at the first run record against the rules.
fn judge_runs(table: &Table, present: usize, block: Block) -> Result<(), Refusal> {
    let length = 1 + present;
    for (i, run) in block.bytes.chunks(length).enumerate() {
        let agent = |&r: &u8| usize::from(r) < table.n && matches!(table.kind(r.into()), 1 | 2);
        if i >= 4 || run.len() < length || usize::from(run[0]) >= present || !run[1..].iter().all(agent) {
            return Err((8, block.place + i * length));
        }
    }
    Ok(())
}

/// Refusal 9, at the first byte of the file's knowledge against the rules.
fn judge_known(table: &Table, block: Block) -> Result<(), Refusal> {
    for (i, &r) in block.bytes.iter().enumerate() {
        let rises = i == 0 || block.bytes[i - 1] < r;
        if !rises || !table.free_of(r, ROLE_NAME | VARIABLE | LOCAL_CONSTANT) {
            return Err((9, block.place + i));
        }
    }
    Ok(())
}
