//! Replay: a trace followed over marks, and both sides timed on traces of thirty-two steps through four runs.
mod requests;

use crate::bounds::{Bound, Report};
use crate::compare;
use crate::knowledge::{self, cell, ABSENT};
use crate::open::{blocks, judge, records, Refusal};
pub use requests::{all, handshakes, sends};

const CLAIM: u64 = 7 << 60;
const NO_CLAIM: u64 = 8 << 60;
const SECRECY: u64 = 2 << 40;

/// The packed answer: the claim broken, none, or the first refusal and its place.
pub fn replay(file: &[u8], trace: &[u8]) -> u64 {
    match follow(file, trace) {
        Ok(None) => NO_CLAIM,
        Ok(Some((run, event))) => CLAIM | SECRECY | (event as u64) << 36 | (run as u64) << 32,
        Err((number, place)) => knowledge::refusal(number, place),
    }
}

fn follow(file: &[u8], trace: &[u8]) -> Result<Option<(usize, usize)>, Refusal> {
    judge(file)?;
    let system = System::new(file);
    let mut state = system.start();
    let mut at = 0;
    while at < trace.len() {
        at += system.step(&mut state, &trace[at..]).ok_or((12, at))?;
    }
    Ok(system.broken(&state))
}

#[derive(Clone, Copy)]
struct Run<'a> {
    role: usize,
    agents: &'a [u8],
    events: &'a [u8],
}

/// An accepted file's table and runs.
struct System<'a> {
    table: &'a [u8],
    n: usize,
    known: &'a [u8],
    count: usize,
    runs: [Run<'a>; 4],
}

struct State {
    done: [usize; 4],
    names: [u16; 480],
    classes: [u16; 480],
    marks: [bool; 480],
}

impl<'a> System<'a> {
    fn new(file: &'a [u8]) -> Self {
        let [terms, roles, runs, known] = blocks(file).unwrap();
        let mut events: [&[u8]; 4] = [&[]; 4];
        let mut present = 0;
        for (_, role) in records(roles) {
            events[present] = role.unwrap().events;
            present += 1;
        }
        let mut all = [Run { role: 0, agents: &[], events: &[] }; 4];
        let mut count = 0;
        for run in runs.bytes.chunks_exact(1 + present) {
            let role = usize::from(run[0]);
            all[count] = Run { role, agents: &run[1..], events: events[role] };
            count += 1;
        }
        System { table: terms.bytes, n: terms.bytes.len() / 3, known: known.bytes, count, runs: all }
    }

    fn kind(&self, r: usize) -> u8 {
        self.table[3 * r]
    }

    fn refill(&self, classes: &mut [u16; 480], names: &[u16; 480], u: usize) {
        knowledge::refill(classes, self.table, self.n, self.count, names, u);
    }

    fn settle(&self, marks: &[bool; 480], classes: &[u16; 480]) -> [bool; 480] {
        knowledge::settle(marks, self.table, self.n, self.count, classes)
    }

    fn start(&self) -> State {
        let mut names = [ABSENT; 480];
        let mut classes = [ABSENT; 480];
        for u in 0..=self.count {
            let agents = if u == 0 { &[] } else { self.runs[u - 1].agents };
            for r in 0..self.n {
                names[cell(r, u)] = match self.kind(r) {
                    0..=4 => r as u16,
                    5 => agents.get(usize::from(self.table[3 * r + 1])).map_or(ABSENT, |&a| a.into()),
                    7 if u > 0 => cell(r, u) as u16,
                    _ => ABSENT,
                };
            }
            self.refill(&mut classes, &names, u);
        }
        let mut marks = [false; 480];
        for (r, mark) in marks.iter_mut().enumerate().take(self.n) {
            *mark = self.kind(r) == 4;
        }
        for &r in self.known {
            marks[usize::from(r)] = true;
        }
        State { done: [0; 4], names, classes, marks: self.settle(&marks, &classes) }
    }

    /// How many bytes the step at the front takes, if it is allowed; the state is that after it.
    fn step(&self, state: &mut State, bytes: &[u8]) -> Option<usize> {
        let &[u, count, ..] = bytes else { return None };
        let end = 2 + 2 * usize::from(count);
        let values = bytes.get(2..end)?;
        let u = usize::from(u);
        if u == 0 || u > self.count {
            return None;
        }
        let run = &self.runs[u - 1];
        let event = run.events.get(4 * state.done[u - 1]..)?.get(..4)?;
        let x = usize::from(event[3]);
        let own = usize::from(run.agents[run.role]);
        let peer = usize::from(run.agents[usize::from(event[2])]);
        match event[0] {
            1 => {
                self.take(state, u, x, values)?;
                self.refill(&mut state.classes, &state.names, u);
                state.marks = self.settle(&state.marks, &state.classes);
                if !(state.marks[own] && state.marks[peer] && state.marks[cell(x, u)]) {
                    return None;
                }
            }
            kind => {
                if !values.is_empty() {
                    return None;
                }
                if kind == 0 {
                    if state.classes[cell(x, u)] == ABSENT {
                        return None;
                    }
                    for c in [cell(x, u), peer, own] {
                        self.learn(state, c);
                    }
                }
            }
        }
        state.done[u - 1] += 1;
        Some(end)
    }

    fn learn(&self, state: &mut State, c: usize) {
        if !state.marks[c] {
            state.marks[c] = true;
            state.marks = self.settle(&state.marks, &state.classes);
        }
    }

    /// Gives the unset variables beneath row x the new values, if those are as many and each may be taken.
    fn take(&self, state: &mut State, u: usize, x: usize, values: &[u8]) -> Option<()> {
        let mut beneath = [false; 96];
        beneath[x] = true;
        for r in (0..=x).rev() {
            if beneath[r] && self.kind(r) >= 8 {
                beneath[usize::from(self.table[3 * r + 1])] = true;
                if self.kind(r) >= 10 {
                    beneath[usize::from(self.table[3 * r + 2])] = true;
                }
            }
        }
        let mut values = values.chunks_exact(2);
        for r in 0..=x {
            if beneath[r] && self.kind(r) == 6 && state.names[cell(r, u)] == ABSENT {
                let value = values.next()?;
                let (row, run) = (usize::from(value[0]), usize::from(value[1]));
                if !self.may_take(r, row, run) {
                    return None;
                }
                state.names[cell(r, u)] = cell(row, run) as u16;
            }
        }
        values.next().is_none().then_some(())
    }

    fn may_take(&self, x: usize, row: usize, run: usize) -> bool {
        let agent = self.table[3 * x + 2] == 0;
        row < self.n
            && match self.kind(row) {
                1 | 2 => agent && run == 0,
                4 => !agent && run == 0,
                7 => !agent && 1 <= run && run <= self.count,
                _ => false,
            }
    }

    /// The first broken claim: run from 1, event from 0.
    fn broken(&self, state: &State) -> Option<(usize, usize)> {
        for u in 1..=self.count {
            let run = &self.runs[u - 1];
            if run.agents.iter().any(|&a| self.kind(a.into()) != 1) {
                continue;
            }
            for (j, event) in run.events.chunks_exact(4).enumerate().take(state.done[u - 1]) {
                if event[0] == 2 && state.marks[cell(event[3].into(), u)] {
                    return Some((u, j));
                }
            }
        }
        None
    }
}

const BOUND: Bound = Bound::ratio(1.3);

pub fn run(report: &mut Report) {
    println!("{:44} {:>13} {:>13}", "Replay, one trace of thirty-two steps", "proved", "Rust");
    for (name, (file, trace)) in all() {
        let rows = blocks(&file).unwrap()[0].bytes.len() / 3;
        compare(report, &format!("{name}, {rows} rows"), BOUND, 40, || library::replay(&file, &trace), || replay(&file, &trace));
    }
}
