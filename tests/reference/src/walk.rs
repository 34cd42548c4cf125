//! The list of allowed traces, walked in its order and never stored.

use crate::hope::has_hope;
use crate::scenario::{Action, Event, Scenario};
use crate::system::{Claim, Move, Situation, State, System};
use std::collections::HashMap;
use std::ops::ControlFlow;

/// So many states are remembered at most, to bound the room a walk takes.
const MOST_REMEMBERED: usize = 1 << 18;

/// Which list of traces is meant.
#[derive(Clone, Copy, Debug, PartialEq, Eq)]
pub enum Listing {
    /// All allowed traces.
    Full,
    /// "wherever some run's next event is a send or claim, the only move listed is that of the
    /// lowest such run"
    Short,
}

impl Listing {
    pub const BOTH: [Listing; 2] = [Listing::Full, Listing::Short];

    /// The runs whose moves the list goes on with in a state, in their order.
    fn runs(self, system: &System, state: &State) -> Vec<usize> {
        let runs = system.scenario.run_numbers();
        let sends_or_claims = |&run: &usize| {
            let next = system.next_event(state, run);
            next.is_some_and(|event| event.action != Action::Read)
        };
        let alone = match self {
            Listing::Full => None,
            Listing::Short => runs.clone().find(sends_or_claims),
        };
        alone.map_or_else(|| runs.collect(), |run| vec![run])
    }
}

/// Who looks at the list.
pub trait Visitor {
    /// Takes the next trace of the list, with the claim it breaks, and says whether to go on.
    fn visit(&mut self, trace: &[u8], broken: Option<Claim>) -> ControlFlow<()>;

    /// Says whether the next `count` traces of the list may be counted and not shown. They end as
    /// traces did that were visited before, state for state, so they break claims only if those
    /// did.
    fn passes(&mut self, _count: u64) -> bool {
        false
    }
}

/// Shows a list to a visitor: "in it a trace precedes its extensions. Two traces that first
/// differ at a move are ordered by run, then by the new values in order of variable row, each by
/// row and then run."
pub fn walk(listing: Listing, scenario: Scenario, visitor: &mut dyn Visitor) {
    let mut system = System::new(scenario);
    let start = system.start();
    let mut walk = Walk {
        listing,
        system,
        visitor,
        trace: Vec::new(),
        shown: 0,
        extensions: HashMap::new(),
    };
    let _ = walk.traces_from(&start);
}

struct Walk<'a> {
    listing: Listing,
    system: System,
    visitor: &'a mut dyn Visitor,
    /// The trace that leads here.
    trace: Vec<u8>,
    /// How many traces were visited or passed.
    shown: u64,
    /// How many traces of the list go through a state by one way there. That depends on the state
    /// alone, since a walk is of one list.
    extensions: HashMap<State, u64>,
}

impl Walk<'_> {
    /// The trace that leads here and all its extensions.
    fn traces_from(&mut self, here: &Situation) -> ControlFlow<()> {
        if let Some(&count) = self.extensions.get(&here.state) {
            if self.visitor.passes(count) {
                self.shown += count;
                return ControlFlow::Continue(());
            }
        }
        let before = self.shown;
        let broken = self.system.broken_claim(here);
        self.visitor.visit(&self.trace, broken)?;
        self.shown += 1;
        for run in self.listing.runs(&self.system, &here.state) {
            self.traces_by_run(here, run)?;
        }
        self.remember(here, self.shown - before);
        ControlFlow::Continue(())
    }

    fn remember(&mut self, here: &Situation, count: u64) {
        if self.extensions.len() < MOST_REMEMBERED {
            self.extensions.insert(here.state.clone(), count);
        }
    }

    /// The traces that go on with a move of that run.
    fn traces_by_run(&mut self, here: &Situation, run: usize) -> ControlFlow<()> {
        let Some(event) = self.system.next_event(&here.state, run) else {
            return ControlFlow::Continue(());
        };
        let step = Move {
            run,
            values: vec![],
        };
        match event.action {
            Action::Send | Action::Claim => self.traces_by_move(here, &step),
            Action::Read => self.traces_by_read(here, step, event),
        }
    }

    /// The traces that go on with a read of these values and any for the variables left.
    fn traces_by_read(
        &mut self,
        here: &Situation,
        mut step: Move,
        event: Event,
    ) -> ControlFlow<()> {
        let variables = self.system.new_variables(&here.state, step.run, event);
        let Some(&variable) = variables.get(step.values.len()) else {
            return self.traces_by_move(here, &step);
        };
        if !self.may_become_allowed(here, &step, event, &variables) {
            return ControlFlow::Continue(());
        }
        for value in self.system.candidates(variable) {
            step.values.push(value);
            self.traces_by_read(here, step.clone(), event)?;
            step.values.pop();
        }
        ControlFlow::Continue(())
    }

    /// Whether a read can be allowed with these first values.
    fn may_become_allowed(
        &mut self,
        here: &Situation,
        step: &Move,
        event: Event,
        variables: &[usize],
    ) -> bool {
        let size = self.system.store.size();
        let names = self.system.names(step.run, event);
        let state = here.state.with_values(step.run, variables, &step.values);
        let pattern = self.system.value(&state, step.run, event.row);
        let allowed = names
            .iter()
            .all(|&name| here.knowledge.derives(&self.system.store, name))
            && has_hope(&mut self.system, &here.knowledge, pattern);
        self.system.store.forget_since(size);
        allowed
    }

    /// The traces that go on with that move, if it is allowed.
    fn traces_by_move(&mut self, here: &Situation, step: &Move) -> ControlFlow<()> {
        let size = self.system.store.size();
        if let Some(there) = self.system.after(here, step) {
            let length = self.trace.len();
            self.trace.extend(step.bytes());
            self.traces_from(&there)?;
            self.trace.truncate(length);
        }
        self.system.store.forget_since(size);
        ControlFlow::Continue(())
    }
}
