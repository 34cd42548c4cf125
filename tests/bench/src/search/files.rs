//! Scenario files put together from rows, roles, runs and knowledge, and taken apart again.
use crate::open;

pub struct Role {
    pub known: Vec<u8>,
    pub events: Vec<[u8; 4]>,
}

/// The contents of a file.
#[derive(Default)]
pub struct Parts {
    pub rows: Vec<[u8; 3]>,
    pub roles: Vec<Role>,
    // Of each run its role, then its agents by role.
    pub runs: Vec<Vec<u8>>,
    pub known: Vec<u8>,
}

impl Parts {
    /// The contents of an accepted file.
    pub fn of(file: &[u8]) -> Self {
        let [terms, roles, runs, known] = open::blocks(file).expect("an accepted file");
        let roles: Vec<_> = open::records(roles).filter_map(|(_, role)| role).map(Role::of).collect();
        Parts {
            rows: terms.bytes.chunks_exact(3).map(|row| [row[0], row[1], row[2]]).collect(),
            runs: runs.bytes.chunks_exact(1 + roles.len()).map(<[u8]>::to_vec).collect(),
            roles,
            known: known.bytes.to_vec(),
        }
    }

    /// The file, with the largest budget.
    pub fn file(&self) -> Vec<u8> {
        let mut file = vec![1, 255, 255, 255, 255];
        let roles: Vec<u8> = self.roles.iter().flat_map(Role::record).collect();
        for block in [&self.rows.concat(), &roles, &self.runs.concat(), &self.known] {
            file.extend((block.len() as u16).to_be_bytes());
            file.extend(block);
        }
        file
    }
}

impl Role {
    fn of(role: open::Role) -> Self {
        let events = role.events.chunks_exact(4).map(|e| [e[0], e[1], e[2], e[3]]).collect();
        Role { known: role.known.to_vec(), events }
    }

    fn record(&self) -> Vec<u8> {
        let (known, events) = (self.known.len() as u8, self.events.len() as u8);
        [&[known], &self.known[..], &[events], &self.events.concat()].concat()
    }
}

/// A message to a role.
pub fn send(peer: u8, row: u8) -> [u8; 4] {
    [0, 0, peer, row]
}

/// A message from a role.
pub fn read(peer: u8, row: u8) -> [u8; 4] {
    [1, 0, peer, row]
}

/// A claim that a row is secret.
pub fn claim(row: u8) -> [u8; 4] {
    [2, 0, 0, row]
}

/// The bytes of a file that is written as text, with comments from `#` to the end of a line.
pub fn bytes(text: &str) -> Vec<u8> {
    let digits: String = text.lines().flat_map(|line| line.split('#').next().unwrap().split_whitespace()).collect();
    (0..digits.len()).step_by(2).map(|i| u8::from_str_radix(&digits[i..i + 2], 16).unwrap()).collect()
}
