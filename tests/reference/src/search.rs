//! Search by either list: the verdict on a scenario, by its budget; and the list of its traces.

use crate::refusal::{refused, Refusal};
use crate::scenario::open;
use crate::system::Claim;
use crate::walk::{walk, Listing, Visitor};
use std::ops::ControlFlow;

pub const TRACE_BYTES: usize = 128;

#[derive(Clone, Debug, PartialEq, Eq)]
pub enum Verdict {
    /// The first trace of the list that breaks a claim: its place, counted from 1, the claim, the
    /// trace.
    Broken {
        place: u64,
        claim: Claim,
        trace: Vec<u8>,
    },
    /// No trace breaks a claim; the list's length.
    Held(u64),
    /// None of the traces that may be judged breaks a claim, and there are more; the budget.
    Stopped(u32),
}

/// "Search refuses as Open, then 10 if the trace buffer is shorter than 128 bytes, place its
/// length." The search through the short list "refuses as Search does".
pub fn search(listing: Listing, file: &[u8], buffer_length: usize) -> Result<Verdict, Refusal> {
    let scenario = open(file)?;
    if buffer_length < TRACE_BYTES {
        return refused(10, buffer_length);
    }
    let mut judge = Judge {
        budget: scenario.budget,
        judged: 0,
        verdict: None,
    };
    walk(listing, scenario, &mut judge);
    Ok(judge.verdict.unwrap_or(Verdict::Held(judge.judged)))
}

/// Judges the list trace by trace until a claim is broken or the budget is spent.
struct Judge {
    budget: u32,
    judged: u64,
    verdict: Option<Verdict>,
}

impl Judge {
    fn ends_with(&mut self, verdict: Verdict) -> ControlFlow<()> {
        self.verdict = Some(verdict);
        ControlFlow::Break(())
    }
}

impl Visitor for Judge {
    fn visit(&mut self, trace: &[u8], broken: Option<Claim>) -> ControlFlow<()> {
        if self.judged == u64::from(self.budget) {
            return self.ends_with(Verdict::Stopped(self.budget));
        }
        self.judged += 1;
        match broken {
            Some(claim) => self.ends_with(Verdict::Broken {
                place: self.judged,
                claim,
                trace: trace.to_vec(),
            }),
            None => ControlFlow::Continue(()),
        }
    }

    /// The walk would have ended at a break, so traces like those before break nothing.
    fn passes(&mut self, count: u64) -> bool {
        let within_budget = count <= u64::from(self.budget) - self.judged;
        if within_budget {
            self.judged += count;
        }
        within_budget
    }
}

/// The first `bound` traces of a file's list, or all of them if there are fewer.
pub fn traces(listing: Listing, file: &[u8], bound: usize) -> Result<Vec<Vec<u8>>, Refusal> {
    let mut first = FirstTraces {
        bound,
        traces: Vec::new(),
    };
    walk(listing, open(file)?, &mut first);
    Ok(first.traces)
}

struct FirstTraces {
    bound: usize,
    traces: Vec<Vec<u8>>,
}

impl Visitor for FirstTraces {
    fn visit(&mut self, trace: &[u8], _broken: Option<Claim>) -> ControlFlow<()> {
        if self.traces.len() == self.bound {
            return ControlFlow::Break(());
        }
        self.traces.push(trace.to_vec());
        ControlFlow::Continue(())
    }
}
