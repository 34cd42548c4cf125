//! Requests for Replay: files with long traces through four runs.
use library::random::Random;
use library::scenarios::framed;

const STEPS: usize = 32;

/// A file and a trace through it.
pub type Request = (Vec<u8>, Vec<u8>);

/// The requests with their names. Each trace is allowed to its end.
pub fn all() -> Vec<(&'static str, Request)> {
    let mut random = Random::new(9);
    let two = |random: &mut Random, rows: usize| ("two handshakes in two pairs of runs", handshakes(random, rows));
    vec![two(&mut random, 0), two(&mut random, 60), two(&mut random, 96), ("sends of shared terms", sends(&mut random))]
}

/// The rows with random pairs and encryptions of them up to so many.
fn filled(random: &mut Random, mut rows: Vec<[u8; 3]>, most: usize) -> Vec<[u8; 3]> {
    while rows.len() < most {
        let (left, right) = (random.below(rows.len()), random.below(rows.len()));
        let pair = random.chance(2) && rows[left][0] != 11;
        let row = [if pair { 11 } else { 12 }, left as u8, right as u8];
        if !rows.contains(&row) {
            rows.push(row);
        }
    }
    rows
}

// Rows of the handshakes.
const NONCES: [u8; 4] = [4, 5, 6, 7];
const VARIABLES: [u8; 4] = [8, 9, 10, 11];

/// Two roles that exchange two nonces each under public keys, in four runs, and a trace in which each reads what the other sent.
pub fn handshakes(random: &mut Random, most: usize) -> Request {
    let [m, p, o, q] = NONCES;
    let [y, z, x, w] = VARIABLES;
    let mut rows: Vec<[u8; 3]> = vec![[1, 0, 0], [1, 1, 0], [5, 0, 0], [5, 1, 0]];
    rows.extend((0..4).map(|i| [7, i, 0]));
    rows.extend((0..4).map(|i| [6, i, 1]));
    // 12 and 13: public keys, 14 and 15: their inverses
    rows.extend([[8, 2, 0], [8, 3, 0], [9, 2, 0], [9, 3, 0]]);
    let mut sealed = |left: u8, right: u8, key: u8| {
        let pair = [11, left, right];
        let at = rows.iter().position(|row| *row == pair).unwrap_or(rows.len());
        if at == rows.len() {
            rows.push(pair);
        }
        rows.push([12, at as u8, key]);
        rows.len() as u8 - 1
    };
    // the first role's view of four messages, then the second's
    let first = [sealed(m, 2, 13), sealed(m, y, 12), sealed(p, y, 13), sealed(p, z, 12)];
    let second = [sealed(x, 2, 13), sealed(x, o, 12), sealed(w, o, 13), sealed(w, q, 12)];
    let last = (sealed(y, z, 13), sealed(o, q, 13));
    let begin = [0, 1, 1, first[0], 1, 2, 1, first[1], 0, 3, 1, first[2], 1, 4, 1, first[3], 0, 5, 1, last.0, 2, 6, 0, m, 2, 7, 0, p, 2, 8, 0, y];
    let answer = [1, 1, 0, second[0], 0, 2, 0, second[1], 1, 3, 0, second[2], 0, 4, 0, second[3], 1, 5, 0, last.1, 2, 6, 0, o, 2, 7, 0, q, 2, 8, 0, x];
    let roles = [&[6, 2, 3, m, p, 13, 14, 8][..], &begin, &[7, 2, 3, o, q, 12, 13, 15, 8], &answer].concat();
    let table = filled(random, rows, most).concat();
    let file = framed(100, [&table, &roles, &[0, 0, 1, 1, 0, 1, 0, 0, 1, 1, 0, 1], &[0, 1]]);
    let mut trace = vec![];
    for (a, b) in [(1, 2), (3, 4)] {
        trace.extend([a, 0, b, 1, m, a, b, 0, a, 1, o, b, a, 0, b, 1, p, a, b, 0, a, 1, q, b, a, 0, b, 0]);
        trace.extend([a, 0, b, 0, a, 0, b, 0, a, 0, b, 0]);
    }
    (file, trace)
}

/// A role with eight sends of terms that share, in four runs that take turns.
pub fn sends(random: &mut Random) -> Request {
    let mut rows: Vec<[u8; 3]> = vec![[1, 0, 0], [5, 0, 0]];
    rows.extend((0..8).map(|i| [7, i, 0]));
    let rows = filled(random, rows, 96);
    let mut role = vec![10, 0, 1, 2, 3, 4, 5, 6, 7, 8, 9, 8];
    for i in 0..8 {
        role.extend([0, i, 0, 95 - 3 * i]);
    }
    let trace = (0..STEPS as u8).flat_map(|i| [1 + i % 4, 0]).collect();
    (framed(100, [&rows.concat(), &role, &[0; 8], &[0]]), trace)
}
