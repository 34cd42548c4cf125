//! States of the runs, the moves allowed in them, and the claims broken in them.

use crate::knowledge::Knowledge;
use crate::scenario::{Action, Event, Scenario};
use crate::table::{AGENT_TYPE, INTRUDER_CONSTANT, LOCAL_CONSTANT, TRUSTED_AGENT, UNTRUSTED_AGENT};
use crate::term::{Store, Term, TermId};
use std::collections::BTreeMap;
use std::rc::Rc;

/// "A value is written as row and run, with run 0 for agents and intruder constants." Values are
/// ordered "by row and then run".
#[derive(Clone, Copy, Debug, PartialEq, Eq, PartialOrd, Ord, Hash)]
pub struct Value {
    pub row: usize,
    pub run: usize,
}

/// How far each run has come, and the values of its variables by their rows. The first run stands
/// first.
#[derive(Clone, Debug, PartialEq, Eq, Hash)]
pub struct State {
    passed: Vec<usize>,
    values: Vec<BTreeMap<usize, Value>>,
}

impl State {
    /// How many of its events the run has passed.
    pub fn passed(&self, run: usize) -> usize {
        self.passed[run - 1]
    }

    /// The value of a variable in a run, if it is set there.
    pub fn value(&self, run: usize, variable: usize) -> Option<Value> {
        self.values[run - 1].get(&variable).copied()
    }

    /// The state in which these variables of a run, as many as there are values, have these values
    /// too.
    pub fn with_values(&self, run: usize, variables: &[usize], values: &[Value]) -> State {
        let mut state = self.clone();
        state.values[run - 1].extend(variables.iter().copied().zip(values.iter().copied()));
        state
    }

    fn pass_event(&mut self, run: usize) {
        self.passed[run - 1] += 1;
    }
}

/// A state and what the intruder knows in it. The knowledge follows from the state.
#[derive(Clone)]
pub struct Situation {
    pub state: State,
    pub knowledge: Rc<Knowledge>,
}

/// "A run's next event is its only move"; a read gives new values, in order of variable row.
#[derive(Clone, Debug, PartialEq, Eq)]
pub struct Move {
    pub run: usize,
    pub values: Vec<Value>,
}

impl Move {
    /// The move as a step of a trace: "run (1 to 4), count of new values, two bytes (row, run) for
    /// each".
    pub fn bytes(&self) -> Vec<u8> {
        let mut bytes = vec![self.run as u8, self.values.len() as u8];
        bytes.extend(
            self.values
                .iter()
                .flat_map(|value| [value.row as u8, value.run as u8]),
        );
        bytes
    }
}

/// A secrecy claim in a run: run from 1, event from 0.
#[derive(Clone, Copy, Debug, PartialEq, Eq)]
pub struct Claim {
    pub run: usize,
    pub event: usize,
}

/// A scenario with the terms of its rows.
pub struct System {
    pub scenario: Scenario,
    pub store: Store,
    terms: Vec<TermId>,
}

impl System {
    pub fn new(scenario: Scenario) -> System {
        let mut store = Store::default();
        let terms = scenario.table.terms(&mut store);
        System {
            scenario,
            store,
            terms,
        }
    }

    /// "Knowledge starts as the file's list and all intruder constants of the table."
    pub fn start(&mut self) -> Situation {
        let constants = self.scenario.table.rows_of_kind(INTRUDER_CONSTANT);
        let known: Vec<TermId> = self
            .scenario
            .knowledge
            .iter()
            .copied()
            .chain(constants)
            .map(|row| self.terms[row])
            .collect();
        let runs = self.scenario.runs.len();
        let state = State {
            passed: vec![0; runs],
            values: vec![BTreeMap::new(); runs],
        };
        Situation {
            state,
            knowledge: Rc::new(Knowledge::of(&mut self.store, &known)),
        }
    }

    /// The next event of a run, if the run is there and not finished.
    pub fn next_event(&self, state: &State, run: usize) -> Option<Event> {
        let record = self.scenario.run(run)?;
        self.scenario.events(record).get(state.passed(run)).copied()
    }

    /// The variables to which the run's next event gives values: for a read those beneath its
    /// pattern that are "not yet set in that run", key positions included.
    pub fn new_variables(&self, state: &State, run: usize, event: Event) -> Vec<usize> {
        match event.action {
            Action::Read => {
                let beneath = self.scenario.table.variables_beneath(event.row);
                beneath
                    .into_iter()
                    .filter(|&variable| state.value(run, variable).is_none())
                    .collect()
            }
            Action::Send | Action::Claim => vec![],
        }
    }

    /// "An agent variable may take any agent row; a fresh variable any intruder constant or any
    /// c#u, u being any run of the scenario."
    pub fn may_hold(&self, variable: usize, value: Value) -> bool {
        let table = &self.scenario.table;
        let (Some(variable), Some(row)) = (table.row(variable), table.row(value.row)) else {
            return false;
        };
        let agent = variable.right == AGENT_TYPE;
        match row.kind {
            TRUSTED_AGENT | UNTRUSTED_AGENT => agent && value.run == 0,
            INTRUDER_CONSTANT => !agent && value.run == 0,
            LOCAL_CONSTANT => !agent && self.scenario.run(value.run).is_some(),
            _ => false,
        }
    }

    /// The values that a variable may take, "each by row and then run".
    pub fn candidates(&self, variable: usize) -> Vec<Value> {
        let rows = (0..).take_while(|&row| self.scenario.table.has(row));
        let every =
            rows.flat_map(|row| (0..=self.scenario.runs.len()).map(move |run| Value { row, run }));
        every
            .filter(|&value| self.may_hold(variable, value))
            .collect()
    }

    /// The situation after a move, if the move is allowed.
    pub fn after(&mut self, here: &Situation, step: &Move) -> Option<Situation> {
        let event = self.next_event(&here.state, step.run)?;
        let variables = self.new_variables(&here.state, step.run, event);
        let fits = |(&variable, &value)| self.may_hold(variable, value);
        if step.values.len() != variables.len() || !variables.iter().zip(&step.values).all(fits) {
            return None;
        }
        let mut state = here.state.with_values(step.run, &variables, &step.values);
        let knowledge = self.knowledge_after(here, &state, step.run, event)?;
        state.pass_event(step.run);
        Some(Situation { state, knowledge })
    }

    /// What is known after an event in the state that has its new values; none if it is a read that
    /// is not allowed. "Knowledge never shrinks": a message that is read stays known.
    fn knowledge_after(
        &mut self,
        here: &Situation,
        state: &State,
        run: usize,
        event: Event,
    ) -> Option<Rc<Knowledge>> {
        match event.action {
            // "A send adds sender, receiver and term."
            Action::Send => {
                let message = self.message(state, run, event);
                Some(Rc::new(here.knowledge.plus(&mut self.store, &message)))
            }
            // "allowed exactly if sender, receiver and pattern are then derivable"
            Action::Read => {
                let message = self.message(state, run, event);
                let derivable = message
                    .iter()
                    .all(|&term| here.knowledge.derives(&self.store, term));
                derivable.then(|| here.knowledge.clone())
            }
            // "A claim adds nothing."
            Action::Claim => Some(here.knowledge.clone()),
        }
    }

    /// The two names of a send or read and its term, as they stand in the run.
    fn message(&mut self, state: &State, run: usize, event: Event) -> [TermId; 3] {
        let [own_name, peer] = self.names(run, event);
        [own_name, peer, self.value(state, run, event.row)]
    }

    /// The run's own agent and the agent it has for the event's peer.
    pub fn names(&mut self, run: usize, event: Event) -> [TermId; 2] {
        let record = &self.scenario.runs[run - 1];
        [record.role, event.peer].map(|role| self.terms[record.agents[role]])
    }

    /// A row's term as it stands in a run; a variable that is not set stands for itself.
    pub fn value(&mut self, state: &State, run: usize, row: usize) -> TermId {
        let scenario = &self.scenario;
        self.store.instance(self.terms[row], &|atom| {
            value_of_atom(scenario, state, run, atom)
        })
    }

    /// Of the claims broken in this situation "the lowest run, then the lowest event". A claim is
    /// judged by what is known now, not by what was known when it was passed.
    pub fn broken_claim(&mut self, here: &Situation) -> Option<Claim> {
        for run in self.scenario.run_numbers() {
            for event in 0..here.state.passed(run) {
                if self.is_broken(here, Claim { run, event }) {
                    return Some(Claim { run, event });
                }
            }
        }
        None
    }

    /// Whether a passed event is a claim "in a run whose agents are all trusted and the claimed
    /// value is derivable".
    fn is_broken(&mut self, here: &Situation, claim: Claim) -> bool {
        let run = &self.scenario.runs[claim.run - 1];
        let event = self.scenario.events(run)[claim.event];
        if event.action != Action::Claim || !self.scenario.has_only_trusted_agents(run) {
            return false;
        }
        let claimed = self.value(&here.state, claim.run, event.row);
        here.knowledge.derives(&self.store, claimed)
    }
}

/// "In run u a role name stands for that agent, local constant c for c#u, a variable for its
/// value."
fn value_of_atom(scenario: &Scenario, state: &State, run: usize, atom: Term) -> Term {
    match atom {
        Term::RoleName(role) => scenario
            .table
            .atom(scenario.runs[run - 1].agents[usize::from(role)]),
        Term::LocalConstant(number) => Term::LocalOfRun(number, run),
        Term::Variable(row) => state
            .value(run, row)
            .map_or(atom, |value| term_of_value(scenario, value)),
        _ => atom,
    }
}

/// The agent, intruder constant or c#u that a value is.
pub fn term_of_value(scenario: &Scenario, value: Value) -> Term {
    match scenario.table.atom(value.row) {
        Term::LocalConstant(number) => Term::LocalOfRun(number, value.run),
        atom => atom,
    }
}
