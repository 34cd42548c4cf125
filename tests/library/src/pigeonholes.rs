//! Scenario files with a read whose variables are all tied to each other, over constants of which fewer can be tied to each other than there are variables:
//! no values fit, and yet every small part of the read is possible.
use crate::random::Random;
use crate::scenarios::framed;

/// Six variables over seven constants: three runs read the pattern at once, and a fourth reads four variables. The budget is 1.
pub fn six_over_seven() -> Vec<u8> {
    (0..SIX_OVER_SEVEN.len()).step_by(2).map(|i| u8::from_str_radix(&SIX_OVER_SEVEN[i..i + 2], 16).unwrap()).collect()
}

const SIX_OVER_SEVEN: &str = "\
    010000000101200200000500000300000400000401000402000403000404000405000406000600010601010602010603010604010605010c0b020c0a\
    100b110f0c0e020c0c130b14120c0f020c0a160b17150c0c160b19180c0e160b1b1a0c0d130b1d1c0c0c020c0b1f0b201e0c0b130b22210c0d020c0b\
    240b25230c0b160b27260c0d160b29280c0a130b2b2a0c0a240b2d2c0c0a1f0b2f2e0c0c240b31300c05020c03330c06020c08350c07020c03370c08\
    020c03390c09020c033b0c09390c04350c073b0c04390c043b0c03020c05420c04020c05440c05370c05390c053b0c06420c06440c06370c06390c06\
    3b0c07420c07440c07330c07350c07390c08420c08440c08330c08370c083b0c09420c09440c09330c09350c09370c03350c0437050100001b020102\
    0101000032015f040100010a0101010b0102010c0103010d000c0000000000000000000100000026003436383a3c3d3e3f40414345464748494a4b4c\
    4d4e4f505152535455565758595a5b5c5d5e";

// Rows that all these files have: two agents, the role names, and a constant that the roles know and the intruder lacks.
const AGENTS: [u8; 2] = [0, 1];
const ROLES: [u8; 2] = [2, 3];
const GLOBAL: u8 = 4;
const FIRST_ROWS: [[u8; 3]; 5] = [[1, 0, 0], [1, 1, 0], [5, 0, 0], [5, 1, 0], [3, 0, 0]];

const LOCAL: u8 = 7;
const INTRUDER: u8 = 4;
const PAIR: u8 = 11;
const ENCRYPTED: u8 = 12;

/// Where the known ties of constants come from.
#[derive(Clone, Copy, Debug, PartialEq)]
pub enum Source {
    /// The intruder knows them.
    Known,
    /// The intruder knows them but for some, which runs of the second role send one after the other.
    Sent,
    /// Runs of the second role send them, with constants of their own.
    Own,
    /// Runs of the second role read constants for all variables but the first, in their order, in the opposite one or in others, and send the ties of
    /// those variables.
    Copied,
}

/// How a read is made.
#[derive(Clone, Copy, Debug)]
pub struct Shape {
    pub variables: usize,
    pub constants: usize,
    /// Constants of the same part are not tied to each other.
    pub parts: usize,
    /// Whether there are ties of three too.
    pub threes: bool,
    /// Whether ties stand in each other's keys, and not in pairs.
    pub nested: bool,
    pub source: Source,
    /// What is left out where it does not fit is drawn by this.
    pub seed: u64,
}

impl Shape {
    /// Constants that are all tied to each other.
    pub const fn new(variables: usize, constants: usize) -> Self {
        Shape { variables, constants, parts: constants, threes: false, nested: false, source: Source::Known, seed: 0 }
    }
}

/// What runs do besides reading the pattern.
#[derive(Clone, Copy, Debug, PartialEq)]
pub enum Beside {
    /// Runs of the second role read four variables one after the other.
    Values,
    /// They claim, eight times.
    Claims,
    /// They claim seven times and then read the pattern too.
    ClaimsFirst,
}

const MESSAGES: usize = 8;

/// A file of four runs, so many of which read the pattern at once. What does not fit into 96 rows is left out.
pub fn file(shape: &Shape, readers: usize, beside: Beside, budget: u32) -> Vec<u8> {
    let mut random = Random::new(shape.seed);
    let mut ties = pairs(shape.variables, |i, j| i < j);
    let mut edges = pairs(shape.constants, |i, j| i % shape.parts != j % shape.parts);
    // By the ties to the last variable the others are read, so these stay.
    let last = shape.variables - 1;
    while Read::of(shape, &ties, &edges).rows.len() > 96 {
        let loose: Vec<usize> = (0..ties.len()).filter(|&t| ties[t].1 < last).collect();
        if edges.is_empty() || !loose.is_empty() && random.chance(4) {
            ties.remove(random.pick(&loose));
        } else {
            edges.remove(random.below(edges.len()));
        }
    }
    Read::of(shape, &ties, &edges).file(shape, readers, beside, budget)
}

fn pairs(count: usize, has: impl Fn(usize, usize) -> bool) -> Vec<(usize, usize)> {
    (0..count * count).map(|e| (e / count, e % count)).filter(|&(i, j)| has(i, j)).collect()
}

/// The first constants, so many, in their order and in the opposite one, and for each further constant an order in which it takes the place of another.
fn orders(random: &mut Random, constants: &[u8], length: usize) -> Vec<Vec<u8>> {
    let first = constants[..length].to_vec();
    let mut orders = vec![first.clone(), first.iter().rev().copied().collect()];
    for &further in &constants[length..] {
        let mut order = first.clone();
        for end in (1..length).rev() {
            order.swap(end, random.below(end + 1));
        }
        order[random.below(length)] = further;
        orders.push(order);
    }
    orders
}

/// A table with the pattern of a read, its variables, the constants and their ties.
struct Read {
    rows: Vec<[u8; 3]>,
    variables: Vec<u8>,
    constants: Vec<u8>,
    edges: Vec<u8>,
    pattern: u8,
    sent: Vec<u8>,
}

impl Read {
    fn of(shape: &Shape, ties: &[(usize, usize)], edges: &[(usize, usize)]) -> Self {
        let mut read = Read { rows: FIRST_ROWS.to_vec(), variables: vec![], constants: vec![], edges: vec![], pattern: 0, sent: vec![] };
        let kind = if shape.source == Source::Own { LOCAL } else { INTRUDER };
        read.constants = (0..shape.constants).map(|c| read.row([kind, c as u8, 0])).collect();
        read.variables = (0..shape.variables).map(|v| read.row([6, v as u8, 1])).collect();
        let parts = read.ties(&read.variables.clone(), ties, shape.threes);
        read.pattern = read.joined(parts, shape.nested);
        if shape.source == Source::Copied {
            read.copied(&mut Random::new(shape.seed));
            return read;
        }
        read.edges = read.ties(&read.constants.clone(), edges, shape.threes);
        read.sent = match shape.source {
            Source::Known | Source::Copied => vec![],
            Source::Sent => read.edges.split_off(read.edges.len().saturating_sub(MESSAGES)),
            Source::Own => read.messages(),
        };
        read
    }

    /// The number of a row, which is added if it is new.
    fn row(&mut self, row: [u8; 3]) -> u8 {
        let place = self.rows.iter().position(|&r| r == row);
        place.unwrap_or_else(|| {
            self.rows.push(row);
            self.rows.len() - 1
        }) as u8
    }

    /// {x}({y}G) for each pair, and {x}({y}({z}G)) where x and y are tied, and y and z.
    fn ties(&mut self, atoms: &[u8], pairs: &[(usize, usize)], threes: bool) -> Vec<u8> {
        let mut ties = vec![];
        for &(i, j) in pairs {
            let key = self.row([ENCRYPTED, atoms[j], GLOBAL]);
            ties.push(self.row([ENCRYPTED, atoms[i], key]));
        }
        for &(i, j) in pairs.iter().filter(|_| threes) {
            for (t, _) in pairs.iter().enumerate().filter(|(_, &(k, l))| k == j && l != i) {
                ties.push(self.row([ENCRYPTED, atoms[i], ties[t]]));
            }
        }
        ties
    }

    /// The pattern: the last variable and pairs of the ties, or all variables and a tie in the key of the next.
    fn joined(&mut self, ties: Vec<u8>, nested: bool) -> u8 {
        let variables = self.variables.clone();
        if nested {
            let inner = ties[1..].iter().fold(ties[0], |content, &key| self.row([ENCRYPTED, content, key]));
            return self.tuple(&[&variables[..], &[inner]].concat());
        }
        self.tuple(&[&ties[..], &variables[variables.len() - 1..]].concat())
    }

    fn tuple(&mut self, parts: &[u8]) -> u8 {
        let (&last, others) = parts.split_last().unwrap();
        others.iter().rev().fold(last, |rest, &part| self.row([PAIR, part, rest]))
    }

    /// What the second role reads and sends: constants in some orders for all variables but the first, and the pattern without that.
    fn copied(&mut self, random: &mut Random) {
        let others = self.variables[1..].to_vec();
        let tuple = self.tuple(&others);
        let read = self.row([ENCRYPTED, tuple, GLOBAL]);
        for order in orders(random, &self.constants, others.len()) {
            let tuple = self.tuple(&order);
            let known = self.row([ENCRYPTED, tuple, GLOBAL]);
            self.edges.push(known);
        }
        let rest = (0..others.len()).fold(self.pattern, |rest, _| self.rows[usize::from(rest)][2]);
        self.sent = vec![read, rest];
    }

    /// Constants and their ties in as few messages as a role may send.
    fn messages(&mut self) -> Vec<u8> {
        let terms = [std::mem::take(&mut self.edges), self.constants.clone()].concat();
        let length = terms.len().div_ceil(MESSAGES);
        terms.chunks(length).map(|terms| self.tuple(terms)).collect()
    }

    fn file(&self, shape: &Shape, readers: usize, beside: Beside, budget: u32) -> Vec<u8> {
        let read = [1, 0, 1, self.pattern];
        let claims = |count: usize| vec![[2, 0, 0, GLOBAL]; count];
        let second: Vec<[u8; 4]> = match (shape.source, beside) {
            (Source::Known, Beside::Values) => self.variables[..4].iter().map(|&x| [1, 0, 0, x]).collect(),
            (Source::Known, Beside::Claims) => claims(8),
            (Source::Known, Beside::ClaimsFirst) => [claims(7), vec![[1, 0, 0, self.pattern]]].concat(),
            (Source::Copied, _) => vec![[1, 0, 0, self.sent[0]], [0, 0, 0, self.sent[1]]],
            _ => self.sent.iter().map(|&row| [0, 0, 0, row]).collect(),
        };
        let own: &[u8] = &[&ROLES[..], &[GLOBAL], &self.constants].concat();
        let role = |known: &[u8], events: &[[u8; 4]]| [&[known.len() as u8], known, &[events.len() as u8], &events.concat()].concat();
        let roles = [role(&own[..3], &[read]), role(own, &second)].concat();
        let runs: Vec<u8> = (0..4).flat_map(|run| [u8::from(run >= readers), AGENTS[0], AGENTS[1]]).collect();
        let known = [&AGENTS[..], &self.edges].concat();
        framed(budget, [&self.rows.concat(), &roles, &runs, &known])
    }
}
