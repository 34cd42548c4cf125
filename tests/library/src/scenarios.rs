//! Random scenario files that are accepted: small tables, one to three roles that send each other messages, one to four runs; and files near others.
use crate::random::Random;

/// An accepted scenario file with budget 0. Some of its roles' messages meet: what one sends, another reads with variables in place of constants.
pub fn scenario(random: &mut Random) -> Vec<u8> {
    made(random).file()
}

/// An accepted scenario file of reads only, with budget 0: no read needs that its role has sent or claimed anything.
pub fn reads_only(random: &mut Random) -> Vec<u8> {
    let mut making = made(random);
    for role in &mut making.roles {
        role.events.retain(|event| event[0] == 1);
    }
    making.file()
}

fn made(random: &mut Random) -> Making {
    let mut making = Making::new(random);
    for _ in 0..random.pick(&[0, 1, 2, 3, 3, 4]) {
        making.exchange(random);
    }
    for _ in 0..random.below(3) {
        making.any_event(random);
    }
    making.claims(random);
    making.runs(random);
    making.known(random);
    making
}

/// An accepted file near another one: some bytes past its budget are changed, if that can be done.
pub fn near(random: &mut Random, file: &[u8]) -> Vec<u8> {
    for _ in 0..60 {
        let mut changed = file.to_vec();
        for _ in 0..1 + random.below(4) {
            let at = 5 + random.below(changed.len() - 5);
            changed[at] = random.below(28) as u8;
        }
        if reference::open(&changed).is_ok() {
            return changed;
        }
    }
    file.to_vec()
}

/// A file with a budget and its four blocks.
pub fn framed(budget: u32, blocks: [&[u8]; 4]) -> Vec<u8> {
    let mut file = vec![1];
    file.extend(budget.to_be_bytes());
    for block in blocks {
        file.extend((block.len() as u16).to_be_bytes());
        file.extend(block);
    }
    file
}

/// The same file with another budget.
pub fn with_budget(file: &[u8], budget: u32) -> Vec<u8> {
    [&file[..1], &budget.to_be_bytes(), &file[5..]].concat()
}

// More events in a run make lists that are long and alike.
const MOST_EVENTS: usize = 5;

struct Role {
    known: Vec<u8>,
    events: Vec<[u8; 4]>,
}

/// A scenario on its way: the table grows with the events.
struct Making {
    rows: Vec<[u8; 3]>,
    roles: Vec<Role>,
    runs: Vec<u8>,
    known: Vec<u8>,
}

impl Making {
    /// Atoms in any order, keys above them, and roles without events.
    fn new(random: &mut Random) -> Self {
        let roles = random.pick(&[1, 2, 2, 2, 3]);
        let mut atoms: Vec<[u8; 3]> = (0..roles).map(|i| [5, i, 0]).collect();
        let mut some = |counts: &[u8], atom: fn(u8) -> [u8; 3]| {
            atoms.extend((0..random.pick(counts)).map(atom));
        };
        some(&[1, 1, 2, 2, 3], |i| [1, i, 0]);
        some(&[0, 1], |_| [2, 0, 0]);
        some(&[0, 1], |_| [3, 0, 0]);
        some(&[0, 1, 1], |_| [4, 0, 0]);
        some(&[0, 1, 1, 2], |i| [7, i, 0]);
        some(&[0, 1, 2, 3], |i| [6, i, 1]);
        some(&[0, 0, 1], |_| [6, 0, 0]);
        shuffle(random, &mut atoms);
        let mut making = Making { rows: atoms, roles: vec![], runs: vec![], known: vec![] };
        for _ in 0..random.below(6) {
            making.key(random);
        }
        for _ in 0..roles {
            let known = making.role_known(random);
            making.roles.push(Role { known, events: vec![] });
        }
        making
    }

    /// The number of a row, which is added if it is new.
    fn row(&mut self, row: [u8; 3]) -> u8 {
        let place = self.rows.iter().position(|&r| r == row);
        let place = place.unwrap_or_else(|| {
            self.rows.push(row);
            self.rows.len() - 1
        });
        place as u8
    }

    fn rows_of(&self, kinds: &[u8]) -> Vec<u8> {
        (0..self.rows.len() as u8).filter(|&r| kinds.contains(&self.rows[r as usize][0])).collect()
    }

    fn agent_like(&self, r: &u8) -> bool {
        let row = self.rows[*r as usize];
        matches!(row[0], 1 | 2 | 5) || row[0] == 6 && row[2] == 0
    }

    /// A key of an agent, a role or, now and then, an agent variable.
    fn key(&mut self, random: &mut Random) -> u8 {
        let names: Vec<u8> = self.rows_of(&[1, 2, 5, 5, 6]).into_iter().filter(|r| self.agent_like(r)).collect();
        let (left, right) = (random.pick(&names), random.pick(&names));
        let kind = random.pick(&[8, 8, 9, 10, 10]);
        self.row([kind, left, if kind == 10 { right } else { 0 }])
    }

    /// Whether a row of one of the kinds lies beneath.
    fn has_beneath(&self, r: u8, kinds: &[u8]) -> bool {
        let [kind, left, right] = self.rows[r as usize];
        kinds.contains(&kind) || kind >= 8 && self.has_beneath(left, kinds) || kind >= 10 && self.has_beneath(right, kinds)
    }

    /// What a role knows: nearly always the names of all roles, and some of the rest.
    fn role_known(&self, random: &mut Random) -> Vec<u8> {
        let mut known = vec![];
        for r in 0..self.rows.len() as u8 {
            let left_out = if self.rows[r as usize][0] == 5 { random.chance(20) } else { random.chance(3) };
            if !left_out && !self.has_beneath(r, &[6]) {
                known.push(r);
            }
        }
        known
    }

    /// A term of a few layers.
    fn term(&mut self, random: &mut Random, layers: usize) -> u8 {
        if layers == 0 || random.chance(4) {
            let atoms = self.rows_of(&[1, 3, 4, 5, 6, 7]);
            let fresh = self.rows_of(&[6, 7]);
            return if fresh.is_empty() || random.chance(3) { random.pick(&atoms) } else { random.pick(&fresh) };
        }
        let left = self.term(random, layers - 1);
        let right = match random.below(4) {
            0 | 1 => self.key(random),
            2 => random.below(self.rows.len()) as u8,
            _ => self.term(random, layers - 1),
        };
        let pair = self.rows[left as usize][0] != 11 && random.chance(2);
        self.row(if pair { [11, left, right] } else { [12, left, right] })
    }

    /// A term as its reader has it: some atoms have become variables.
    fn mirrored(&mut self, random: &mut Random, r: u8) -> u8 {
        let row = self.rows[r as usize];
        let fresh = u8::from(matches!(row[0], 4 | 7));
        let variables: Vec<u8> = self.rows_of(&[6]).into_iter().filter(|&x| self.rows[x as usize][2] == fresh).collect();
        match row[0] {
            4 | 7 if !variables.is_empty() && !random.chance(4) => random.pick(&variables),
            1 | 2 | 5 if !variables.is_empty() && random.chance(3) => random.pick(&variables),
            11 | 12 => {
                let left = self.mirrored(random, row[1]);
                let right = self.mirrored(random, row[2]);
                self.row([row[0], left, right])
            }
            _ => r,
        }
    }

    /// A message: one role sends a term, and a role reads what it may be.
    fn exchange(&mut self, random: &mut Random) {
        let (from, to) = (random.below(self.roles.len()), random.below(self.roles.len()));
        for _ in 0..10 {
            let rows = self.rows.clone();
            let layers = 1 + random.below(3);
            let sent = self.term(random, layers);
            let read = self.mirrored(random, sent);
            let label = random.below(256) as u8;
            if self.add(from, [0, label, to as u8, sent]) {
                self.add(to, [1, label, from as u8, read]);
                return;
            }
            self.rows = rows;
        }
    }

    /// A send or a read of any row.
    fn any_event(&mut self, random: &mut Random) {
        let (own, peer) = (random.below(self.roles.len()), random.below(self.roles.len()));
        let row = random.below(self.rows.len()) as u8;
        self.add(own, [random.below(2) as u8, 0, peer as u8, row]);
    }

    /// Claims at the roles' ends, sometimes further ahead.
    fn claims(&mut self, random: &mut Random) {
        for own in 0..self.roles.len() {
            for _ in 0..random.pick(&[0, 1, 1, 2]) {
                let secrets = self.rows_of(&[6, 7, 7, 10, 12]);
                if secrets.is_empty() {
                    continue;
                }
                let claim = [2, 9, 0, random.pick(&secrets)];
                let end = self.roles[own].events.len();
                let place = if random.chance(4) { random.below(end + 1) } else { end };
                self.add_at(own, place, claim);
            }
        }
    }

    fn add(&mut self, role: usize, event: [u8; 4]) -> bool {
        self.add_at(role, self.roles[role].events.len(), event)
    }

    /// Adds an event to a role if the scenario is then accepted.
    fn add_at(&mut self, role: usize, place: usize, event: [u8; 4]) -> bool {
        if self.roles[role].events.len() == MOST_EVENTS {
            return false;
        }
        self.roles[role].events.insert(place, event);
        let accepted = reference::open(&self.file()).is_ok();
        if !accepted {
            self.roles[role].events.remove(place);
        }
        accepted
    }

    /// One to four runs, more often of the roles that have events.
    fn runs(&mut self, random: &mut Random) {
        let (agents, trusted) = (self.rows_of(&[1, 2]), self.rows_of(&[1]));
        for _ in 0..random.pick(&[1, 2, 2, 3, 3, 4]) {
            let (one, other) = (random.below(self.roles.len()), random.below(self.roles.len()));
            let role = if self.roles[one].events.is_empty() { other } else { one };
            self.runs.push(role as u8);
            for _ in 0..self.roles.len() {
                self.runs.push(if random.chance(3) { random.pick(&agents) } else { random.pick(&trusted) });
            }
        }
    }

    /// The intruder's knowledge: nearly all agents, some of the rest.
    fn known(&mut self, random: &mut Random) {
        for r in 0..self.rows.len() as u8 {
            let agent = matches!(self.rows[r as usize][0], 1 | 2);
            let taken = if agent { !random.chance(8) } else { random.chance(3) };
            if taken && !self.has_beneath(r, &[5, 6, 7]) {
                self.known.push(r);
            }
        }
    }

    fn file(&self) -> Vec<u8> {
        let mut roles = vec![];
        for role in &self.roles {
            roles.push(role.known.len() as u8);
            roles.extend(&role.known);
            roles.push(role.events.len() as u8);
            roles.extend(role.events.concat());
        }
        framed(0, [&self.rows.concat(), &roles, &self.runs, &self.known])
    }
}

fn shuffle<T>(random: &mut Random, items: &mut [T]) {
    for end in (1..items.len()).rev() {
        items.swap(end, random.below(end + 1));
    }
}
