//! Scenario files of one run whose only event reads several variables: some made to be slow although few values or none are allowed, and random ones.
use crate::random::Random;
use crate::scenarios::framed;

/// Rows that all these files have: agents a and b, the role names, and k(a,b), k(b,a) of the run, which the intruder lacks, with their rows in the role.
pub struct Reads {
    rows: Vec<[u8; 3]>,
    known: Vec<u8>,
    parts: Vec<u8>,
}

const AGENTS: [u8; 2] = [0, 1];
const ROLES: [u8; 2] = [2, 3];
/// k(a,b) and k(b,a), then k(R0,R1) and k(R1,R0), which stand for them in the run.
const KEYS: [u8; 2] = [4, 5];
const ROLE_KEYS: [u8; 2] = [6, 7];
/// A constant that the role and the intruder know.
const GLOBAL: u8 = 8;

impl Default for Reads {
    fn default() -> Self {
        Reads::new()
    }
}

impl Reads {
    pub fn new() -> Self {
        let rows = vec![[1, 0, 0], [1, 1, 0], [5, 0, 0], [5, 1, 0], [10, 0, 1], [10, 1, 0], [10, 2, 3], [10, 3, 2], [3, 0, 0]];
        Reads { rows, known: vec![AGENTS[0], AGENTS[1], GLOBAL], parts: vec![] }
    }

    /// The number of a row, which is added if it is new.
    pub fn row(&mut self, kind: u8, left: u8, right: u8) -> u8 {
        let row = [kind, left, right];
        let place = self.rows.iter().position(|&r| r == row);
        place.unwrap_or_else(|| {
            self.rows.push(row);
            self.rows.len() - 1
        }) as u8
    }

    pub fn fresh(&mut self, number: usize) -> u8 {
        self.row(6, number as u8, 1)
    }

    pub fn constant(&mut self, number: usize) -> u8 {
        self.row(4, number as u8, 0)
    }

    pub fn encrypted(&mut self, content: u8, key: u8) -> u8 {
        self.row(12, content, key)
    }

    pub fn tuple(&mut self, parts: &[u8]) -> u8 {
        let (&last, others) = parts.split_last().unwrap();
        others.iter().rev().fold(last, |rest, &part| self.row(11, part, rest))
    }

    /// The intruder knows a row.
    pub fn knows(&mut self, row: u8) {
        self.known.push(row);
    }

    /// The run reads a row too.
    pub fn reads(&mut self, row: u8) {
        self.parts.push(row);
    }

    /// All that the run reads, as one row.
    fn pattern(&mut self) -> u8 {
        self.tuple(&self.parts.clone())
    }

    /// The file of one run that reads the pattern, with the largest budget.
    pub fn file(mut self) -> Vec<u8> {
        let read = [1, 0, 1, self.pattern()];
        self.played(&[&[read], &[]], &[0])
    }

    /// The file of two roles with their events and of runs that play them, with the largest budget.
    fn played(mut self, roles: &[&[[u8; 4]]; 2], runs: &[u8]) -> Vec<u8> {
        assert!(self.rows.len() <= 96);
        self.known.sort();
        self.known.dedup();
        let role = |events: &&[[u8; 4]]| [&[5, ROLES[0], ROLES[1], ROLE_KEYS[0], ROLE_KEYS[1], GLOBAL, events.len() as u8][..], &events.concat()].concat();
        let runs: Vec<u8> = runs.iter().flat_map(|&role| [role, AGENTS[0], AGENTS[1]]).collect();
        framed(u32::MAX, [&self.rows.concat(), &roles.iter().map(role).collect::<Vec<_>>().concat(), &runs, &self.known])
    }
}

/// Seven variables, then an eighth in two encryptions that are known with different contents only.
pub fn contradictory(constants: usize) -> Vec<u8> {
    let mut reads = Reads::new();
    for c in 0..constants {
        reads.constant(c);
    }
    for v in 0..7 {
        let variable = reads.fresh(v);
        reads.reads(variable);
    }
    let eighth = reads.fresh(7);
    for i in 0..2 {
        let content = reads.constant(i);
        let given = reads.encrypted(content, KEYS[i]);
        reads.knows(given);
        let read = reads.encrypted(eighth, ROLE_KEYS[i]);
        reads.reads(read);
    }
    reads.file()
}

/// Seven agent variables with so many agents known, then a fresh one of which no value is known.
pub fn unknown_value(agents: usize) -> Vec<u8> {
    let mut reads = Reads::new();
    for a in 2..agents {
        let agent = reads.row(1, a as u8, 0);
        reads.knows(agent);
    }
    reads.row(7, 0, 0);
    for v in 0..7 {
        let variable = reads.row(6, v, 0);
        reads.reads(variable);
    }
    let eighth = reads.fresh(7);
    reads.reads(eighth);
    reads.file()
}

/// Variables in encryptions that can be built or are known, the last of them in two that contradict each other.
pub fn built_or_known(several: usize, constants: usize) -> Vec<u8> {
    let mut reads = Reads::new();
    for c in 0..constants {
        reads.constant(c);
    }
    for i in 0..2 {
        let content = reads.constant(i);
        let given = reads.encrypted(content, KEYS[i]);
        reads.knows(given);
    }
    for v in 0..7 {
        let variable = reads.fresh(v);
        let part = if v < several { sealed_twice(&mut reads, variable, 0) } else { variable };
        reads.reads(part);
    }
    let eighth = reads.fresh(7);
    for i in 0..2 {
        let part = sealed_twice(&mut reads, eighth, i);
        reads.reads(part);
    }
    reads.file()
}

/// {x, {x}k} under the constant that is known.
fn sealed_twice(reads: &mut Reads, variable: u8, key: usize) -> u8 {
    let inner = reads.encrypted(variable, ROLE_KEYS[key]);
    let content = reads.tuple(&[variable, inner]);
    reads.encrypted(content, GLOBAL)
}

/// Free variables, then encryptions of pairs of others; of pairs of constants so many are known.
pub fn tied(free: usize, pairs: &[(usize, usize)], known: &[(usize, usize)]) -> Vec<u8> {
    ties(free, pairs, known).file()
}

fn ties(free: usize, pairs: &[(usize, usize)], known: &[(usize, usize)]) -> Reads {
    let mut reads = Reads::new();
    for v in 0..free {
        let variable = reads.fresh(v);
        reads.reads(variable);
    }
    for &(i, j) in pairs {
        let content = [reads.fresh(free + i), reads.fresh(free + j)];
        let content = reads.tuple(&content);
        let part = reads.encrypted(content, ROLE_KEYS[0]);
        reads.reads(part);
    }
    for &(i, j) in known {
        let content = [reads.constant(i), reads.constant(j)];
        let content = reads.tuple(&content);
        let given = reads.encrypted(content, KEYS[0]);
        reads.knows(given);
    }
    reads
}

/// A cycle of variables over a graph of two halves in which each constant of one half is tied to each of the other: there is none if it is odd.
pub fn cycle(free: usize, length: usize, half: usize) -> Vec<u8> {
    tied(free, &around(length), &between(half))
}

fn around(length: usize) -> Vec<(usize, usize)> {
    (0..length).map(|i| (i, (i + 1) % length)).collect()
}

fn between(half: usize) -> Vec<(usize, usize)> {
    (0..half * half).flat_map(|e| [(e / half, half + e % half), (half + e % half, e / half)]).collect()
}

/// Runs of as many moves as there can be: so many with a read for each variable, then claims, and at the end a read of eight variables that are tied to each other.
pub fn deepest(readers: usize) -> Vec<u8> {
    let mut reads = ties(0, &around(8), &between(2));
    let variables: Vec<[u8; 4]> = (0..8).map(|v| [1, 0, 1, reads.fresh(v)]).collect();
    let mut last = vec![[2, 0, 0, ROLE_KEYS[0]]; 7];
    last.push([1, 0, 0, reads.pattern()]);
    let runs: Vec<u8> = (0..4).map(|run| u8::from(run >= readers)).collect();
    reads.played(&[&variables, &last], &runs)
}

/// Four variables all tied to each other over a graph of three parts of two constants: there are none.
pub fn four_in_three_parts() -> Vec<u8> {
    let pairs = [(0, 1), (0, 2), (0, 3), (1, 2), (1, 3), (2, 3)];
    let known: Vec<_> = (0..36).map(|e| (e / 6, e % 6)).filter(|(i, j)| i / 2 != j / 2).collect();
    tied(4, &pairs, &known)
}

/// Runs that claim so often, and no more: their traces are many and their states few.
pub fn claims(events: usize, runs: usize) -> Vec<u8> {
    let claims = vec![[2, 0, 0, ROLE_KEYS[0]]; events];
    Reads::new().played(&[&claims, &[]], &vec![0; runs])
}

/// Two runs that read so many variables each, of so many constants: their states are many.
pub fn values(first: usize, second: usize, constants: usize) -> Vec<u8> {
    let mut reads = Reads::new();
    for c in 0..constants {
        reads.constant(c);
    }
    let read: Vec<[u8; 4]> = (0..first.max(second)).map(|v| [1, 0, 1, reads.fresh(v)]).collect();
    reads.played(&[&read[..first], &read[..second]], &[0, 1])
}

/// A random read of two to five variables with some known encryptions.
pub fn random(random: &mut Random) -> Vec<u8> {
    let mut reads = Reads::new();
    let variables: Vec<u8> = (0..2 + random.below(4)).map(|v| if random.chance(5) { reads.row(6, v as u8, 0) } else { reads.fresh(v) }).collect();
    let mut constants: Vec<u8> = (0..1 + random.below(3)).map(|c| reads.constant(c)).collect();
    constants.extend((0..random.below(2)).map(|c| reads.row(7, c as u8, 0)));
    let atoms = [&constants[..], &AGENTS].concat();
    for _ in 0..random.below(7) {
        let key = random.pick(&[KEYS[0], KEYS[0], KEYS[1], GLOBAL]);
        let known: Vec<u8> = atoms.iter().copied().filter(|&row| reads.rows[row as usize][0] != 7).collect();
        let given = term(random, &mut reads, &known, key);
        reads.knows(given);
    }
    for _ in 0..1 + random.below(4) {
        let key = random.pick(&[ROLE_KEYS[0], ROLE_KEYS[0], ROLE_KEYS[1], GLOBAL]);
        let part = if random.chance(3) { random.pick(&variables) } else { term(random, &mut reads, &variables, key) };
        reads.reads(part);
    }
    reads.file()
}

/// An encryption of one or two atoms, with another inside now and then.
fn term(random: &mut Random, reads: &mut Reads, atoms: &[u8], key: u8) -> u8 {
    let mut parts = vec![random.pick(atoms)];
    if random.chance(2) {
        parts.push(random.pick(atoms));
    }
    if random.chance(4) {
        let inner = reads.encrypted(random.pick(atoms), key);
        parts.insert(0, inner);
    }
    let content = reads.tuple(&parts);
    reads.encrypted(content, key)
}
