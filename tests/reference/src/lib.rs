//! The answers of the scenario checker, worked out from the definitions in the plainest way, to
//! compare other programs with. `answer` takes a request as a line of text; `open`, `search`,
//! `derive` and `replay` take bytes, and `traces` lists what Search judges. Search and its list are
//! those of a `Listing`, full or short.

mod derive;
mod example;
mod frame;
mod hope;
mod knowledge;
#[cfg(test)]
mod list_tests;
mod refusal;
mod replay;
mod request;
mod scenario;
mod search;
mod system;
mod table;
mod term;
#[cfg(test)]
mod tests;
mod walk;
mod wellformed;

pub use derive::derive;
pub use example::{stated_short, stated_verdict, uncommented};
pub use refusal::Refusal;
pub use replay::replay;
pub use request::{answer, bytes, hexadecimal, MALFORMED};
pub use scenario::{open, Action, Event, Role, Run, Scenario};
pub use search::{search, traces, Verdict};
pub use system::{Claim, Value};
pub use table::{Row, Table};
pub use walk::{walk, Listing, Visitor};
