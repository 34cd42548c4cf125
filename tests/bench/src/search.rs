//! Search: the walk over a scenario's lists in Rust, with the library's memory of states and without, and both sides timed.
mod completions;
mod exchanges;
mod files;
mod lines;
mod long_lists;
mod memory;
mod possible;
#[cfg(test)]
mod same_answers;
mod scenario;
mod script;
mod short_lists;
mod slow_reads;
#[cfg(test)]
mod tests;
mod timing;
mod walk;

pub use lines::run;
pub use short_lists::run as run_short;
