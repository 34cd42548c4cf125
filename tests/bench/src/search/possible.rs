//! The quick test of a partial choice: whether each part of a row can still be derivable, asked of each part by itself.
use super::scenario::{Scenario, State};
use crate::knowledge::{cell, second, ABSENT};

/// What rows need so that one of them gets the value of a class.
pub type Needs = [u16; 96];

/// Whether row x of run u can still be derivable once more variables of the run are set.
pub fn possible(sc: &Scenario, s: &State, u: usize, x: usize) -> bool {
    let mut can = [true; 96];
    for r in (0..=x).filter(|&r| sc.beneath[x][r]) {
        can[r] = test(sc, s, &can, u, r);
    }
    can[x]
}

/// The test of a row by those of its parts.
fn test(sc: &Scenario, s: &State, can: &[bool; 96], u: usize, r: usize) -> bool {
    if s.values.classes[cell(r, u)] < ABSENT {
        return s.marks[cell(r, u)];
    }
    let both = || can[usize::from(sc.t[3 * r + 1])] && can[second(sc.t, r)];
    match sc.t[3 * r] {
        0..=7 => true,
        11 => both(),
        12 => both() || matchings(sc, s, u, r).next().is_some(),
        _ => matchings(sc, s, u, r).next().is_some(),
    }
}

/// For each marked value of its kind that row r of run u can still get, what the rows need for it.
pub fn matchings<'a>(sc: &'a Scenario, s: &'a State, u: usize, r: usize) -> impl Iterator<Item = Needs> + 'a {
    let kind = sc.t[3 * r];
    let cells = (0..sc.n).filter(move |&y| sc.t[3 * y] == kind);
    let cells = cells.flat_map(|y| (0..=sc.runs.len()).map(move |w| cell(y, w)));
    let marked = cells.filter(|&c| s.marks[c] && usize::from(s.values.classes[c]) == c);
    marked.filter_map(move |c| needs(sc, &s.values.classes, u, r, c as u16))
}

/// What the rows below row r of run u need so that it gets the value of a class, if none is refused it: one pass from the row down.
fn needs(sc: &Scenario, classes: &[u16; 480], u: usize, r: usize, class: u16) -> Option<Needs> {
    let mut need = [ABSENT; 96];
    need[r] = class;
    for q in (0..=r).rev() {
        let kind = sc.t[3 * q];
        if need[q] == ABSENT || kind < 8 {
            continue;
        }
        let (y, w) = (usize::from(need[q]) % 96, usize::from(need[q]) / 96);
        if sc.t[3 * y] != kind {
            return None;
        }
        let first = (usize::from(sc.t[3 * q + 1]), usize::from(sc.t[3 * y + 1]));
        for (part, of) in [first, (second(sc.t, q), second(sc.t, y))] {
            let class = classes[cell(of, w)];
            let own = classes[cell(part, u)];
            let wanted = if own < ABSENT { own } else { need[part] };
            if wanted < ABSENT && wanted != class {
                return None;
            }
            if own == ABSENT {
                need[part] = class;
            }
        }
    }
    Some(need)
}
