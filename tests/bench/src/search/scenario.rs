//! An accepted scenario file as Search works on it, and its states: how far runs have come, what their atoms stand for, and marks.
use crate::knowledge::{self, cell, second, ABSENT};
use crate::open;

pub const READ: u8 = 1;
const SEND: u8 = 0;
const CLAIM: u8 = 2;

/// An event of a run, with the row of its peer's agent.
#[derive(Clone, Copy)]
pub struct Event {
    pub kind: u8,
    pub peer: usize,
    pub row: usize,
}

/// A run: its agents' rows by role, its own, whether all are trusted, its events.
pub struct Run<'a> {
    agents: &'a [u8],
    pub own: usize,
    trusted: bool,
    pub events: Vec<Event>,
}

/// An accepted file, and what follows from its table once and for all.
pub struct Scenario<'a> {
    pub t: &'a [u8],
    pub n: usize,
    pub runs: Vec<Run<'a>>,
    known: &'a [u8],
    // For each row the rows beneath it, itself and key positions included.
    pub beneath: Vec<[bool; 96]>,
    // The rows of variables.
    pub variables: Vec<usize>,
    // The values that an agent variable may take, and a fresh one: row and run.
    values: [Vec<(usize, usize)>; 2],
}

/// What the atoms of each run stand for, and the classes of terms. Only a read changes them.
#[derive(Clone, Copy)]
pub struct Values {
    pub names: [u16; 480],
    pub classes: [u16; 480],
}

/// A state: how many events each run has made, the values set so far, and what the intruder can derive.
#[derive(Clone, Copy)]
pub struct State<'a> {
    pub done: [usize; 4],
    pub values: &'a Values,
    pub marks: [bool; 480],
}

impl<'a> Scenario<'a> {
    pub fn of(file: &'a [u8]) -> Self {
        let [terms, roles, runs, known] = open::blocks(file).expect("an accepted file");
        let t = terms.bytes;
        let n = t.len() / 3;
        let roles: Vec<_> = open::records(roles).filter_map(|(_, role)| role).collect();
        let run = |record: &'a [u8]| {
            let (role, agents) = (usize::from(record[0]), &record[1..]);
            let agent = |role: usize| usize::from(agents[role]);
            let event = |e: &[u8]| Event { kind: e[0], peer: agent(e[2].into()), row: e[3].into() };
            let trusted = agents.iter().all(|&a| t[3 * usize::from(a)] == 1);
            let events = roles[role].events.chunks_exact(4).map(event).collect();
            Run { agents, own: agent(role), trusted, events }
        };
        let runs: Vec<_> = runs.bytes.chunks_exact(1 + roles.len()).map(run).collect();
        let beneath = (0..n).map(|x| beneath(t, x)).collect();
        let variables = (0..n).filter(|&x| t[3 * x] == 6).collect();
        let values = [false, true].map(|fresh| values_of(t, runs.len(), fresh));
        Scenario { t, n, runs, known: known.bytes, beneath, variables, values }
    }

    /// The values before any move.
    pub fn first_values(&self) -> Values {
        let mut v = Values { names: [ABSENT; 480], classes: [ABSENT; 480] };
        for u in 0..=self.runs.len() {
            for r in 0..self.n {
                v.names[cell(r, u)] = self.name(r, u);
            }
            self.refill(&mut v, u);
        }
        v
    }

    /// The state before any move.
    pub fn start<'v>(&self, values: &'v Values) -> State<'v> {
        let mut marks = [false; 480];
        for r in (0..self.n).filter(|&r| self.t[3 * r] == 4) {
            marks[r] = true;
        }
        for &r in self.known {
            marks[usize::from(r)] = true;
        }
        State { done: [0; 4], values, marks: self.settle(&marks, values) }
    }

    /// What the atom of row r stands for in run u before any variable is set.
    fn name(&self, r: usize, u: usize) -> u16 {
        match self.t[3 * r] {
            1..=4 => r as u16,
            5 if u > 0 => self.runs[u - 1].agents[usize::from(self.t[3 * r + 1])].into(),
            7 if u > 0 => cell(r, u) as u16,
            _ => ABSENT,
        }
    }

    fn refill(&self, v: &mut Values, u: usize) {
        knowledge::refill(&mut v.classes, self.t, self.n, self.runs.len(), &v.names, u);
    }

    fn settle(&self, marks: &[bool; 480], v: &Values) -> [bool; 480] {
        knowledge::settle(marks, self.t, self.n, self.runs.len(), &v.classes)
    }

    /// The values where the variable of row x in run u has one more.
    pub fn with_value(&self, v: &Values, x: usize, u: usize, value: (usize, usize)) -> Values {
        let mut more = *v;
        more.names[cell(x, u)] = cell(value.0, value.1) as u16;
        self.refill(&mut more, u);
        more
    }

    /// The same state with values that have grown.
    pub fn with_values<'v>(&self, s: &State, values: &'v Values) -> State<'v> {
        State { done: s.done, values, marks: self.settle(&s.marks, values) }
    }

    /// The state once run k, from 0, has made its event: a send makes term, receiver and sender known.
    pub fn after<'v>(&self, s: &State<'v>, k: usize, event: Event) -> State<'v> {
        let mut next = *s;
        next.done[k] += 1;
        if event.kind == SEND {
            for c in [cell(event.row, k + 1), event.peer, self.runs[k].own] {
                self.learn(&mut next, c);
            }
        }
        next
    }

    /// Makes the value of a cell known.
    fn learn(&self, s: &mut State, c: usize) {
        if !s.marks[c] {
            s.marks[c] = true;
            s.marks = self.settle(&s.marks, s.values);
        }
    }

    /// The first claim that a state breaks: its run, from 1, and its event.
    pub fn broken(&self, s: &State) -> Option<(usize, usize)> {
        for (k, run) in self.runs.iter().enumerate().filter(|(_, run)| run.trusted) {
            let derivable = |e: &Event| e.kind == CLAIM && s.marks[cell(e.row, k + 1)];
            if let Some(event) = run.events[..s.done[k]].iter().position(derivable) {
                return Some((k + 1, event));
            }
        }
        None
    }

    /// The unset variables beneath row x in run u.
    pub fn unset<'s>(&'s self, v: &'s Values, x: usize, u: usize) -> impl Iterator<Item = usize> + 's {
        let unset = move |&y: &usize| self.beneath[x][y] && v.names[cell(y, u)] == ABSENT;
        self.variables.iter().copied().filter(unset)
    }

    /// The values that the variable of row x may take, in their order.
    pub fn values_of(&self, x: usize) -> &[(usize, usize)] {
        &self.values[usize::from(self.t[3 * x + 2])]
    }
}

/// The values of variables of a type: row and run, in their order.
fn values_of(t: &[u8], runs: usize, fresh: bool) -> Vec<(usize, usize)> {
    let runs_of = |r: usize| match t[3 * r] {
        1 | 2 if !fresh => 0..1,
        4 if fresh => 0..1,
        7 if fresh => 1..runs + 1,
        _ => 0..0,
    };
    (0..t.len() / 3).flat_map(|r| runs_of(r).map(move |w| (r, w))).collect()
}

/// The rows beneath row x, itself and key positions included.
fn beneath(t: &[u8], x: usize) -> [bool; 96] {
    let mut below = [false; 96];
    below[x] = true;
    for r in (0..=x).rev().filter(|&r| t[3 * r] >= 8) {
        if below[r] {
            below[usize::from(t[3 * r + 1])] = true;
            below[second(t, r)] = true;
        }
    }
    below
}
