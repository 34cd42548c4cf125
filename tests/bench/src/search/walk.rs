//! The walk through the full or the short list of a scenario in its order, with a memory of states or without.
use super::completions::completes;
use super::memory::{AllStates, Keys, Memory, Slots};
use super::possible::possible;
use super::scenario::{Event, Scenario, State, READ};
use crate::knowledge::{self, cell};
use crate::open;
use std::ops::Range;

const HELD: u64 = 1 << 60;
const STOPPED: u64 = 2 << 60;
const BROKEN: u64 = 3 << 60;

/// Which list is walked through. In the short one, wherever some run's next event is a send or claim, the only move listed is that of the lowest
/// such run.
#[derive(Clone, Copy, Debug)]
pub enum Listing {
    Full,
    Short,
}

/// The packed answer of a walk that remembers states; the trace of a broken claim at the buffer's front.
pub fn search(listing: Listing, file: &[u8], buffer: &mut [u8]) -> u64 {
    answer(listing, file, buffer, true)
}

/// The same answer by a walk through every trace.
pub fn plain_search(listing: Listing, file: &[u8], buffer: &mut [u8]) -> u64 {
    answer(listing, file, buffer, false)
}

fn answer(listing: Listing, file: &[u8], buffer: &mut [u8], remembers: bool) -> u64 {
    let opened = open::open(file);
    if opened != open::ACCEPTED {
        return opened;
    }
    if buffer.len() < 128 {
        return knowledge::refusal(10, buffer.len());
    }
    let scenario = Scenario::of(file);
    let budget = u32::from_be_bytes([file[1], file[2], file[3], file[4]]);
    let memory = remembers.then(Slots::new);
    let mut walk = Walk::new(&scenario, listing, memory, budget.into());
    let walked = walk.extend(&scenario.start(&scenario.first_values()));
    let judged = u64::from(budget) - walk.left as u64;
    match walked {
        Walked::Whole => HELD | judged,
        Walked::Stopped => STOPPED | u64::from(budget),
        Walked::Broken { run, event } => {
            let length = walk.length;
            buffer[..length].copy_from_slice(&walk.trace[..length]);
            let claim = (run as u64) << 32 | (event as u64) << 36 | 2 << 40;
            BROKEN | (length as u64) << 44 | claim | judged
        }
    }
}

/// How many traces an accepted file's list has, or a bound if it has more, and how many states are met up to there. No claim may be broken.
pub fn counted(listing: Listing, file: &[u8], bound: u128) -> (u128, usize) {
    let scenario = Scenario::of(file);
    let mut walk = Walk::new(&scenario, listing, Some(AllStates::default()), bound);
    let traces = match walk.extend(&scenario.start(&scenario.first_values())) {
        Walked::Whole => bound - walk.left,
        Walked::Stopped => bound,
        Walked::Broken { run, event } => panic!("event {event} of run {run} is broken"),
    };
    // All but the first were looked up.
    (traces, 1 + walk.memory.map_or(0, |memory| memory.count()))
}

/// How the walk over a trace and its extensions ended.
enum Walked {
    Whole,
    Stopped,
    Broken { run: usize, event: usize },
}

/// What was asked last of a run and refused: its position, the values of all variables, and the marks.
struct Refused {
    done: usize,
    names: [u64; 8],
    marks: [bool; 480],
}

impl Refused {
    fn is_same(&self, s: &State, k: usize, names: &[u64; 8]) -> bool {
        self.done == s.done[k] && self.names == *names && self.marks == s.marks
    }
}

struct Walk<'a, M> {
    scenario: &'a Scenario<'a>,
    listing: Listing,
    keys: Keys,
    memory: Option<M>,
    // Of each run, if it remembers states.
    refused: [Option<Refused>; 4],
    // The budget that is left, and the trace that leads here.
    left: u128,
    trace: [u8; 128],
    length: usize,
}

impl<'a, M: Memory> Walk<'a, M> {
    fn new(scenario: &'a Scenario, listing: Listing, memory: Option<M>, budget: u128) -> Self {
        Walk { scenario, listing, keys: Keys::new(scenario), memory, refused: [const { None }; 4], left: budget, trace: [0; 128], length: 0 }
    }

    /// Judges the trace that leads to a state, and its extensions in the order of the list.
    fn extend(&mut self, s: &State) -> Walked {
        if self.left == 0 {
            return Walked::Stopped;
        }
        self.left -= 1;
        if let Some((run, event)) = self.scenario.broken(s) {
            return Walked::Broken { run, event };
        }
        let length = self.length;
        for k in self.runs_in(s) {
            let run = &self.scenario.runs[k];
            let Some(&event) = run.events.get(s.done[k]) else { continue };
            self.trace[length] = k as u8 + 1;
            self.trace[length + 1] = 0;
            self.length = length + 2;
            let walked = match event.kind {
                READ => self.ask(s, k, event, length),
                _ => self.make(s, k, event),
            };
            if !matches!(walked, Walked::Whole) {
                return walked;
            }
        }
        self.length = length;
        Walked::Whole
    }

    /// The runs, from 0, of which the list has moves in a state.
    fn runs_in(&self, s: &State) -> Range<usize> {
        let runs = &self.scenario.runs;
        let is_ready = |&k: &usize| runs[k].events.get(s.done[k]).is_some_and(|event| event.kind != READ);
        let ready = match self.listing {
            Listing::Full => None,
            Listing::Short => (0..runs.len()).find(is_ready),
        };
        ready.map_or(0..runs.len(), |k| k..k + 1)
    }

    /// The traces that go on with a read, unless what was refused last is asked again. Without a memory of states it is always asked.
    fn ask(&mut self, s: &State, k: usize, event: Event, step: usize) -> Walked {
        if self.memory.is_none() {
            return self.read_if_named(s, k, event, step);
        }
        let names = self.keys.names(s);
        if self.refused[k].as_ref().is_some_and(|refused| refused.is_same(s, k, &names)) {
            return Walked::Whole;
        }
        let before = self.left;
        let walked = self.read_if_named(s, k, event, step);
        if matches!(walked, Walked::Whole) && self.left == before {
            self.refused[k] = Some(Refused { done: s.done[k], names, marks: s.marks });
        }
        walked
    }

    /// The same where sender and receiver are derivable.
    fn read_if_named(&mut self, s: &State, k: usize, event: Event, step: usize) -> Walked {
        if s.marks[self.scenario.runs[k].own] && s.marks[event.peer] {
            return self.read(s, k, event, step);
        }
        Walked::Whole
    }

    /// The traces that go on with a read, for each choice of values for its unset variables. The step began at an offset.
    fn read(&mut self, s: &State, k: usize, event: Event, step: usize) -> Walked {
        let scenario = self.scenario;
        let u = k + 1;
        let Some(x) = scenario.unset(s.values, event.row, u).next() else {
            return if s.marks[cell(event.row, u)] { self.make(s, k, event) } else { Walked::Whole };
        };
        if !possible(scenario, s, u, event.row) || !completes(scenario, s, u, event.row) {
            return Walked::Whole;
        }
        let length = self.length;
        self.trace[step + 1] += 1;
        for &(r, w) in scenario.values_of(x) {
            let values = scenario.with_value(s.values, x, u, (r, w));
            self.trace[length..length + 2].copy_from_slice(&[r as u8, w as u8]);
            self.length = length + 2;
            let walked = self.read(&scenario.with_values(s, &values), k, event, step);
            if !matches!(walked, Walked::Whole) {
                return walked;
            }
        }
        self.trace[step + 1] -= 1;
        self.length = length;
        Walked::Whole
    }

    /// The traces that go on once run k has made an event that is allowed, its new values being set.
    fn make(&mut self, s: &State, k: usize, event: Event) -> Walked {
        let Some(memory) = &mut self.memory else {
            return self.extend(&self.scenario.after(s, k, event));
        };
        let place = self.keys.place(s, k);
        let count = memory.look_up(&place);
        if count > self.left {
            return Walked::Stopped;
        }
        if count > 0 {
            self.left -= count;
            return Walked::Whole;
        }
        let before = self.left;
        let walked = self.extend(&self.scenario.after(s, k, event));
        if let (Walked::Whole, Some(memory)) = (&walked, &mut self.memory) {
            memory.store(&place, before - self.left);
        }
        walked
    }
}
