//! Files whose lists are far too long to be walked through trace by trace, and yet below the largest budget. None breaks a claim.
use super::files::{bytes, claim, Parts, Role};
use crate::replay;
use library::random::Random;

const LOWE: &str = include_str!("../../../../examples/needham-schroeder-lowe-4.hex");
const ANDREW: &str = include_str!("../../../../examples/andrew-3.hex");

/// Needham-Schroeder-Lowe in four runs, with further claims of each role: the other's nonce, then the own secret key.
pub fn lowe(claims: usize) -> Vec<u8> {
    let mut parts = Parts::of(&bytes(LOWE));
    for (role, rows) in parts.roles.iter_mut().zip([[0x09, 0x0b], [0x08, 0x0d]]) {
        role.events.extend(rows[..claims].iter().map(|&row| claim(row)));
    }
    parts.file()
}

/// Andrew in four runs: both roles between a and b, and both with a and b exchanged.
pub fn andrew() -> Vec<u8> {
    let mut parts = Parts::of(&bytes(ANDREW));
    parts.runs = vec![vec![0, 0, 1], vec![1, 0, 1], vec![0, 1, 0], vec![1, 1, 0]];
    parts.file()
}

/// Two handshakes in two pairs of runs, with so many messages of five and claims of three.
fn handshakes(messages: usize, claims: usize) -> Vec<u8> {
    let mut parts = Parts::of(&replay::handshakes(&mut Random::new(9), 96).0);
    for role in &mut parts.roles {
        role.events.drain(messages..5);
        role.events.truncate(messages + claims);
    }
    parts.file()
}

/// Sends of shared terms in four runs, so many in each.
fn sends(count: usize) -> Vec<u8> {
    let mut parts = Parts::of(&replay::sends(&mut Random::new(9)).0);
    parts.roles[0].events.truncate(count);
    parts.file()
}

/// Four runs that read a variable and claim it twice, none judged. With so many constants there are (1 + 3 constants)^4 states.
pub fn readers(constants: u8) -> Vec<u8> {
    // A trusted agent and one that is not, the role names, the variable.
    let mut rows = vec![[1, 0, 0], [2, 0, 0], [5, 0, 0], [5, 1, 0], [6, 0, 1]];
    rows.extend((0..constants).map(|number| [4, number, 0]));
    let reader = Role { known: vec![2, 3], events: vec![[1, 0, 1, 4], claim(4), claim(4)] };
    let other = Role { known: vec![], events: vec![] };
    Parts { rows, roles: vec![reader, other], runs: vec![vec![0, 0, 1]; 4], known: vec![0, 1] }.file()
}

/// The files with their names.
pub fn all() -> Vec<(&'static str, Vec<u8>)> {
    vec![
        ("Needham-Schroeder-Lowe, 5 events in 4 runs", lowe(1)),
        ("Needham-Schroeder-Lowe, 6 events in 4 runs", lowe(2)),
        ("Andrew, 6 events in 4 runs", andrew()),
        ("two handshakes in pairs, 6 events, 96 rows", handshakes(5, 1)),
        ("two handshakes, 4 messages, 2 claims, 96 rows", handshakes(4, 2)),
        ("sends of shared terms in 4 runs, 96 rows", sends(4)),
    ]
}
