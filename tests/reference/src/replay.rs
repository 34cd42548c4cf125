//! Replay: the claim that a given trace breaks.

use crate::refusal::{refused, Refusal};
use crate::scenario::open;
use crate::system::{Claim, Move, System, Value};

/// "Replay refuses as Open, then 12 exactly if a step is cut short or isn't allowed after those
/// before it, place that step in the trace. Otherwise it gives the claim broken, or none."
pub fn replay(file: &[u8], trace: &[u8]) -> Result<Option<Claim>, Refusal> {
    let mut system = System::new(open(file)?);
    let mut here = system.start();
    let mut place = 0;
    while place < trace.len() {
        let there = step(&trace[place..])
            .and_then(|(step, length)| Some((system.after(&here, &step)?, length)));
        let Some((there, length)) = there else {
            return refused(12, place);
        };
        here = there;
        place += length;
    }
    Ok(system.broken_claim(&here))
}

/// The step at the front of `bytes` and its length, unless it is cut short.
fn step(bytes: &[u8]) -> Option<(Move, usize)> {
    let &[run, count, ..] = bytes else {
        return None;
    };
    let length = 2 + 2 * usize::from(count);
    let values = bytes.get(2..length)?.chunks(2);
    let values = values
        .map(|value| Value {
            row: value[0].into(),
            run: value[1].into(),
        })
        .collect();
    Some((
        Move {
            run: run.into(),
            values,
        },
        length,
    ))
}
