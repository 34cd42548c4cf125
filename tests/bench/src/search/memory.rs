//! The memory of states: with how many traces a state goes on, itself included, where none of them breaks a claim.
use super::scenario::{Scenario, State};
use crate::knowledge::cell;
use std::collections::HashMap;

const SETS: usize = 1344;
const WAYS: usize = 4;

// The low half of a word.
const HALF: u64 = 0xffff_ffff;

/// How far the runs have come and how many moves are left in one word, and the names of each run at the variables' rows, four to a word.
type Key = [u64; 9];

/// What keys are made of.
pub struct Keys {
    // The rows of the variables; row 0 in places that are not used.
    variables: [usize; 8],
    moves: usize,
}

/// The key of a state, and the first slot of its set.
pub struct Place {
    key: Key,
    first: usize,
}

impl Keys {
    pub fn new(scenario: &Scenario) -> Self {
        let mut variables = [0; 8];
        variables[..scenario.variables.len()].copy_from_slice(&scenario.variables);
        let moves = scenario.runs.iter().map(|run| run.events.len()).sum();
        Keys { variables, moves }
    }

    /// The place of the state once run k, from 0, has made one more event.
    pub fn place(&self, s: &State, k: usize) -> Place {
        let mut done = s.done;
        done[k] += 1;
        let mut key = [0; 9];
        let left = self.moves - done.iter().sum::<usize>();
        key[0] = done.iter().rev().fold(left as u64, |word, &events| word << 8 | events as u64);
        key[1..].copy_from_slice(&self.names(s));
        Place { key, first: hash(&key) as usize % SETS * WAYS }
    }

    /// The names of each run at the variables' rows, four to a word.
    pub fn names(&self, s: &State) -> [u64; 8] {
        let mut names = [0; 8];
        for (run, words) in names.chunks_exact_mut(2).enumerate() {
            for (word, rows) in words.iter_mut().zip(self.variables.chunks_exact(4)) {
                let name = |&x: &usize| u64::from(s.values.names[cell(x, run + 1)]);
                *word = rows.iter().rev().fold(0, |word, x| word << 16 | name(x));
            }
        }
        names
    }
}

/// What a walk remembers.
pub trait Memory {
    /// The count of a state, or 0.
    fn look_up(&mut self, place: &Place) -> u128;

    /// Stores the count of a state.
    fn store(&mut self, place: &Place, count: u128);
}

#[derive(Clone, Copy)]
struct Slot {
    key: Key,
    count: u32,
}

/// As many slots as the library has: sets of them, in one of which a key may stand. A slot whose count is 0 is empty.
pub struct Slots(Vec<Slot>);

impl Slots {
    pub fn new() -> Self {
        Slots(vec![Slot { key: [0; 9], count: 0 }; SETS * WAYS])
    }
}

impl Memory for Slots {
    fn look_up(&mut self, place: &Place) -> u128 {
        let set = &self.0[place.first..place.first + WAYS];
        set.iter().find(|slot| slot.key == place.key).map_or(0, |slot| slot.count.into())
    }

    /// Over the state's own entry or else over the first of the smallest count. No count is above the budget, which fits.
    fn store(&mut self, place: &Place, count: u128) {
        let set = &mut self.0[place.first..place.first + WAYS];
        let own = set.iter().position(|slot| slot.key == place.key);
        let way = own.or_else(|| (0..WAYS).min_by_key(|&way| set[way].count)).unwrap();
        set[way] = Slot { key: place.key, count: count as u32 };
    }
}

/// Every state that was looked up, to count with.
#[derive(Default)]
pub struct AllStates(HashMap<Key, u128>);

impl AllStates {
    pub fn count(&self) -> usize {
        self.0.len()
    }
}

impl Memory for AllStates {
    fn look_up(&mut self, place: &Place) -> u128 {
        *self.0.entry(place.key).or_insert(0)
    }

    fn store(&mut self, place: &Place, count: u128) {
        self.0.insert(place.key, count);
    }
}

/// The halves of a word, folded into one number.
fn folded(word: u64) -> u64 {
    (word >> 32) + (word & HALF) * 3
}

/// The hash of a key, mixed by multiplication, a word at a time.
fn hash(key: &Key) -> u64 {
    key.iter().fold(0, |hash, &word| ((hash + folded(word)) & HALF) * 1640531527 >> 16) & HALF
}
