//! The test of a partial choice as a whole: the classes that each unset variable may still get are narrowed until none falls away, and tried
//! one by one where variables are tied to each other.
use super::possible::matchings;
use super::scenario::{Scenario, State};
use crate::knowledge::{cell, second, ABSENT};
use std::ops::Range;

/// A set of classes.
#[derive(Clone, Copy, PartialEq)]
struct Set([u64; 8]);

impl Set {
    const NONE: Set = Set([0; 8]);
    const ALL: Set = Set([!0; 8]);

    fn all_if(whole: bool) -> Set {
        if whole {
            Set::ALL
        } else {
            Set::NONE
        }
    }

    fn insert(&mut self, class: u16) {
        self.0[usize::from(class) / 64] |= 1 << (class % 64);
    }

    fn has(&self, class: u16) -> bool {
        self.0[usize::from(class) / 64] >> (class % 64) & 1 == 1
    }

    fn both(&self, other: &Set) -> Set {
        Set(std::array::from_fn(|i| self.0[i] & other.0[i]))
    }

    fn either(&self, other: &Set) -> Set {
        Set(std::array::from_fn(|i| self.0[i] | other.0[i]))
    }

    fn size(&self) -> u32 {
        self.0.iter().map(|word| word.count_ones()).sum()
    }
}

/// For each unset variable the classes that it may get.
type Domains = [Set; 8];

/// How a row without a class becomes derivable: as a variable, by both parts, or by one of a range of matchings.
enum Way {
    Variable(usize),
    Pair([usize; 2]),
    Encryption([usize; 2], Range<usize>),
    Key(Range<usize>),
}

/// What stays the same while domains are narrowed.
struct Test {
    // The rows of the unset variables, and which classes of theirs are marked.
    rows: Vec<usize>,
    marked: Domains,
    // The rows beneath the pattern that have no class, from low to high, and the pattern itself.
    open: Vec<(usize, Way)>,
    pattern: usize,
    // The classes that variables need where a row gets the value of a marked cell.
    matchings: Vec<[u16; 8]>,
    // The variables beneath each key and encryption that has no class, as bits.
    ties: Vec<u8>,
}

/// Whether the unset variables of run u beneath row x may get values with which the row is derivable: true wherever they may. With one such
/// variable alone its values are as soon tried.
pub fn completes(sc: &Scenario, s: &State, u: usize, x: usize) -> bool {
    if sc.unset(s.values, x, u).nth(1).is_none() {
        return true;
    }
    let rows: Vec<_> = sc.unset(s.values, x, u).collect();
    // Places without a variable have all classes, so that they never count as empty.
    let (mut domains, mut marked) = ([Set::ALL; 8], [Set::ALL; 8]);
    for (i, &y) in rows.iter().enumerate() {
        (domains[i], marked[i]) = (Set::NONE, Set::NONE);
        for &(r, w) in sc.values_of(y) {
            let class = s.values.classes[cell(r, w)];
            domains[i].insert(class);
            if s.marks[cell(r, w)] {
                marked[i].insert(class);
            }
        }
    }
    let mut sets = [Set::ALL; 96];
    let mut test = Test { rows, marked, open: vec![], pattern: x, matchings: vec![], ties: vec![] };
    for r in (0..=x).filter(|&r| sc.beneath[x][r]) {
        if s.values.classes[cell(r, u)] < ABSENT {
            sets[r] = Set::all_if(s.marks[cell(r, u)]);
        } else {
            test.add(sc, s, u, r);
        }
    }
    test.completable(&mut sets, domains)
}

impl Test {
    /// Adds a row without a class.
    fn add(&mut self, sc: &Scenario, s: &State, u: usize, r: usize) {
        let parts = [sc.t[3 * r + 1].into(), second(sc.t, r)];
        let way = match sc.t[3 * r] {
            11 => Way::Pair(parts),
            12 => Way::Encryption(parts, self.add_matchings(sc, s, u, r)),
            8..=10 => Way::Key(self.add_matchings(sc, s, u, r)),
            _ => Way::Variable(self.rows.iter().position(|&y| y == r).expect("an unset variable")),
        };
        if matches!(way, Way::Encryption(..) | Way::Key(_)) {
            let tied = self.rows.iter().enumerate().filter(|(_, &y)| sc.beneath[r][y]);
            self.ties.push(tied.fold(0, |bits, (i, _)| bits | 1 << i));
        }
        self.open.push((r, way));
    }

    /// Adds what the variables need where row r gets the value of a marked cell.
    fn add_matchings(&mut self, sc: &Scenario, s: &State, u: usize, r: usize) -> Range<usize> {
        let begin = self.matchings.len();
        for needs in matchings(sc, s, u, r) {
            let mut of_variables = [ABSENT; 8];
            for (need, &y) in of_variables.iter_mut().zip(&self.rows) {
                *need = needs[y];
            }
            self.matchings.push(of_variables);
        }
        begin..self.matchings.len()
    }

    /// Whether the variables may get classes of the domains with which the pattern is derivable.
    fn completable(&self, sets: &mut [Set; 96], mut domains: Domains) -> bool {
        self.settle(sets, &mut domains);
        if domains.contains(&Set::NONE) {
            return false;
        }
        let Some(i) = self.tied(&domains) else { return true };
        let tried = domains[i];
        (0..ABSENT).filter(|&class| tried.has(class)).any(|class| {
            domains[i] = Set::NONE;
            domains[i].insert(class);
            self.completable(sets, domains)
        })
    }

    /// Narrows the domains until no class falls away.
    fn settle(&self, sets: &mut [Set; 96], domains: &mut Domains) {
        loop {
            let before = *domains;
            for i in 0..self.rows.len() {
                // The first is always looked at, since any shows that there is no completion.
                if i == 0 || domains[i].size() > 1 {
                    domains[i] = domains[i].both(&self.set_of(sets, domains, i));
                }
            }
            if *domains == before {
                return;
            }
        }
    }

    /// The classes that variable i gets where the pattern is derivable. Rows with a class have their set already.
    fn set_of(&self, sets: &mut [Set; 96], domains: &Domains, i: usize) -> Set {
        for (r, way) in &self.open {
            let both = |[left, right]: [usize; 2]| sets[left].both(&sets[right]);
            sets[*r] = match way {
                Way::Variable(slot) if *slot == i => self.marked[i],
                Way::Variable(slot) => Set::all_if(domains[*slot].both(&self.marked[*slot]) != Set::NONE),
                Way::Pair(parts) => both(*parts),
                Way::Encryption(parts, range) => both(*parts).either(&self.matched(domains, i, range)),
                Way::Key(range) => self.matched(domains, i, range),
            };
        }
        sets[self.pattern]
    }

    /// The classes that variable i gets where a row gets the value of a marked cell, if the domains have what variables need.
    fn matched(&self, domains: &Domains, i: usize, range: &Range<usize>) -> Set {
        let mut set = Set::NONE;
        for needs in &self.matchings[range.clone()] {
            if needs.iter().zip(domains).all(|(&need, domain)| need == ABSENT || domain.has(need)) {
                if needs[i] == ABSENT {
                    return Set::ALL;
                }
                set.insert(needs[i]);
            }
        }
        set
    }

    /// A variable that is tied to another by a key or an encryption, both having more than one class to get: the one with the fewest.
    fn tied(&self, domains: &Domains) -> Option<usize> {
        let sizes = domains.map(|domain| domain.size());
        let mut best = None;
        for bits in &self.ties {
            let open = (0..8).filter(|&i| bits >> i & 1 == 1 && sizes[i] > 1);
            if open.clone().count() > 1 {
                best = best.into_iter().chain(open).min_by_key(|&i| sizes[i]);
            }
        }
        best
    }
}
