//! Scenario files from exchanges that are written as text, with a role, an event or claims on a line.
//!
//! `role A na` begins role A, which makes up na; `send B TERM`, `read B TERM` and `claim TERM ..` are its events. A term is a role's name, a name that
//! a role makes up, any other name, which is a variable, `pk(A)`, `sk(A)`, `k(A,B)`, `{TERM}KEY`, or several of these with commas between.
use super::files::{claim, read, send, Parts, Role};
use std::ops::RangeInclusive;

/// The agent that is not trusted. All others are.
const STRANGER: &str = "e";

// Kinds of rows.
const TRUSTED: u8 = 1;
const UNTRUSTED: u8 = 2;
const ROLE: u8 = 5;
const VARIABLE: u8 = 6;
const MADE_UP: u8 = 7;
const PUBLIC: u8 = 8;
const SECRET: u8 = 9;
const SHARED: u8 = 10;

/// The file of an exchange and its runs, with the largest budget. A run is the name of a role and the agents in order of the roles.
pub fn file(text: &str, runs: &[&str]) -> Vec<u8> {
    let lines: Vec<Vec<&str>> = text.lines().map(words).filter(|line| !line.is_empty()).collect();
    let heads: Vec<&[&str]> = lines.iter().filter(|line| line[0] == "role").map(|line| &line[1..]).collect();
    let runs: Vec<Vec<&str>> = runs.iter().map(|run| words(run)).collect();
    let mut table = Table::new(&heads, &runs);
    let runs: Vec<Vec<u8>> = runs.iter().map(|run| table.run(run)).collect();
    let mut roles: Vec<Role> = vec![];
    for line in &lines {
        match roles.last_mut() {
            Some(role) if line[0] != "role" => role.events.extend(table.events(line)),
            _ => roles.push(Role { known: vec![], events: vec![] }),
        }
    }
    for (role, head) in roles.iter_mut().zip(&heads) {
        role.known = table.known_to(head);
    }
    let known = table.known_at_first(&runs);
    Parts { rows: table.rows, roles, runs, known }.file()
}

fn words(line: &str) -> Vec<&str> {
    line.split_whitespace().collect()
}

/// A table on its way, in which each row stands once, and the rows of names.
struct Table<'t> {
    rows: Vec<[u8; 3]>,
    names: Vec<(&'t str, u8)>,
}

impl<'t> Table<'t> {
    /// The intruder's constant, the agents, the names of the roles, and what they make up.
    fn new(heads: &[&[&'t str]], runs: &[Vec<&'t str>]) -> Self {
        let mut table = Table { rows: vec![[4, 0, 0]], names: vec![] };
        for agent in runs.iter().flat_map(|run| &run[1..]) {
            table.name(agent, if *agent == STRANGER { UNTRUSTED } else { TRUSTED }, 0);
        }
        for head in heads {
            table.name(head[0], ROLE, 0);
        }
        for made_up in heads.iter().flat_map(|head| &head[1..]) {
            table.name(made_up, MADE_UP, 0);
        }
        table
    }

    /// The row of a name. A new one is added with the next number of its kind.
    fn name(&mut self, name: &'t str, kind: u8, right: u8) -> u8 {
        if let Some(&(_, row)) = self.names.iter().find(|(other, _)| *other == name) {
            return row;
        }
        let number = self.rows.iter().filter(|row| row[0] == kind).count() as u8;
        let row = self.row([kind, number, right]);
        self.names.push((name, row));
        row
    }

    /// The row of a name that is there.
    fn named(&self, name: &str) -> u8 {
        self.names.iter().find(|(other, _)| *other == name).expect("a name that is there").1
    }

    /// The number of a row. A new one is added.
    fn row(&mut self, row: [u8; 3]) -> u8 {
        let place = self.rows.iter().position(|&other| other == row);
        place.unwrap_or_else(|| {
            self.rows.push(row);
            self.rows.len() - 1
        }) as u8
    }

    /// The number of the role of a name.
    fn role(&self, name: &str) -> u8 {
        self.rows[usize::from(self.named(name))][1]
    }

    fn run(&self, run: &[&str]) -> Vec<u8> {
        let agents = run[1..].iter().map(|agent| self.named(agent));
        [self.role(run[0])].into_iter().chain(agents).collect()
    }

    fn events(&mut self, line: &[&'t str]) -> Vec<[u8; 4]> {
        match *line {
            ["send", peer, term] => vec![send(self.role(peer), self.whole(term))],
            ["read", peer, term] => vec![read(self.role(peer), self.whole(term))],
            ["claim", ref terms @ ..] => terms.iter().map(|term| claim(self.whole(term))).collect(),
            _ => panic!("no event: {line:?}"),
        }
    }

    /// The row of the term that is a text.
    fn whole(&mut self, mut text: &'t str) -> u8 {
        let row = self.term(&mut text);
        assert!(text.is_empty(), "no term: {text}");
        row
    }

    /// The row of the term at the front of a text, which loses it.
    fn term(&mut self, text: &mut &'t str) -> u8 {
        let first = self.part(text);
        if !takes(text, ",") {
            return first;
        }
        let others = self.term(text);
        self.row([11, first, others])
    }

    /// The same for a term that is no pair.
    fn part(&mut self, text: &mut &'t str) -> u8 {
        if takes(text, "{") {
            let content = self.term(text);
            assert!(takes(text, "}"), "no end: {text}");
            let key = self.part(text);
            return self.row([12, content, key]);
        }
        match word(text) {
            "pk" => self.key(PUBLIC, text),
            "sk" => self.key(SECRET, text),
            "k" => self.key(SHARED, text),
            name => self.name(name, VARIABLE, 1),
        }
    }

    /// The row of a key by the names of roles at the front. The inverse of a public key stands by it.
    fn key(&mut self, kind: u8, text: &mut &'t str) -> u8 {
        assert!(takes(text, "("), "no names: {text}");
        let left = self.named(word(text));
        let right = if takes(text, ",") { self.named(word(text)) } else { 0 };
        assert!(takes(text, ")"), "no end: {text}");
        let row = self.row([kind, left, right]);
        if kind == PUBLIC {
            self.row([SECRET, left, 0]);
        }
        row
    }

    /// What a role knows: the roles' names, what it makes up, public keys and its own keys.
    fn known_to(&self, head: &[&str]) -> Vec<u8> {
        let own = self.named(head[0]);
        let made_up: Vec<u8> = head[1..].iter().map(|name| self.named(name)).collect();
        let knows = |&r: &u8| match self.rows[usize::from(r)] {
            [ROLE | PUBLIC, ..] => true,
            [MADE_UP, ..] => made_up.contains(&r),
            [SECRET, left, _] => left == own,
            [SHARED, left, right] => left == own || right == own,
            _ => false,
        };
        (0..self.rows.len() as u8).filter(knows).collect()
    }

    /// What the intruder knows: the agents, and keys of runs.
    fn known_at_first(&mut self, runs: &[Vec<u8>]) -> Vec<u8> {
        let mut known = self.rows_of(TRUSTED..=UNTRUSTED);
        for key in self.rows_of(PUBLIC..=SHARED) {
            for run in runs {
                known.extend(self.known_key(key, run));
            }
        }
        known.sort();
        known.dedup();
        known
    }

    fn rows_of(&self, kinds: RangeInclusive<u8>) -> Vec<u8> {
        (0..self.rows.len() as u8).filter(|&r| kinds.contains(&self.kind(r))).collect()
    }

    fn kind(&self, r: u8) -> u8 {
        self.rows[usize::from(r)][0]
    }

    /// The row of a key with a run's agents in place of the roles, if the intruder knows it: a public key, or a key of the untrusted agent.
    fn known_key(&mut self, key: u8, run: &[u8]) -> Option<u8> {
        let [kind, left, right] = self.rows[usize::from(key)];
        let agent = |name: u8| run[1 + usize::from(self.rows[usize::from(name)][1])];
        let left = agent(left);
        let right = if kind == SHARED { agent(right) } else { 0 };
        let is_stranger = |r: u8| self.kind(r) == UNTRUSTED;
        (kind == PUBLIC || is_stranger(left) || is_stranger(right)).then(|| self.row([kind, left, right]))
    }
}

/// Whether a sign stood at the front of a text, which loses it.
fn takes(text: &mut &str, sign: &str) -> bool {
    let rest = text.strip_prefix(sign);
    *text = rest.unwrap_or(text);
    rest.is_some()
}

/// The word at the front of a text, which loses it.
fn word<'t>(text: &mut &'t str) -> &'t str {
    let end = text.find(|c: char| !c.is_alphanumeric()).unwrap_or(text.len());
    let (word, rest) = text.split_at(end);
    assert!(!word.is_empty(), "no word: {text}");
    *text = rest;
    word
}
