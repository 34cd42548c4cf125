//! The lines of Search: whole lists, long lists and slow reads, by the library and by Rust with the same memory of states and with none.
use super::files::bytes;
use super::timing::{called, duration, paired, ratio, speed, timed, Times, BOTH};
use super::walk::{search, Listing};
use super::{long_lists, slow_reads};
use crate::bounds::{Bound, Pair, Report};
use library::answer::{number, word, HELD};
use library::scenarios::with_budget;

// A walk without memory that takes longer, in nanoseconds, is not made: its time is estimated by the first traces.
const LONGEST: f64 = 2e10;
const FIRST: u32 = 1_000_000;

const EXAMPLES: [(&str, &str); 9] = [
    ("Needham-Schroeder-Lowe, 2 runs", include_str!("../../../../examples/needham-schroeder-lowe-2.hex")),
    ("Needham-Schroeder-Lowe, 3 runs", include_str!("../../../../examples/needham-schroeder-lowe-3.hex")),
    ("Needham-Schroeder-Lowe, 4 runs", include_str!("../../../../examples/needham-schroeder-lowe-4.hex")),
    ("Otway-Rees, 1 run", include_str!("../../../../examples/otway-rees-1.hex")),
    ("Otway-Rees, 2 runs", include_str!("../../../../examples/otway-rees-2.hex")),
    ("Otway-Rees, 3 runs", include_str!("../../../../examples/otway-rees-3.hex")),
    ("Otway-Rees, 4 runs", include_str!("../../../../examples/otway-rees-4.hex")),
    ("Andrew, six events in each of 2 runs", include_str!("../../../../examples/andrew-2.hex")),
    ("Andrew, six events in each of 3 runs", include_str!("../../../../examples/andrew-3.hex")),
];

// Of exchanges and long lists; the four readers, whose states the memory does not hold; slow reads.
const BOUND: Bound = Bound::ratio(1.1).or_brief(1.3);
const READERS_BOUND: Bound = Bound::ratio(1.3);
const READS_BOUND: Bound = Bound::ratio(3.0);

pub fn run(report: &mut Report) {
    heading("Search, whole lists");
    for (name, file) in examples() {
        line(report, name, BOUND, &file, true);
    }
    heading("Search, lists of more than 10^8 traces");
    for (name, file) in long_lists::all() {
        line(report, name, BOUND, &file, true);
    }
    line(report, "four readers, more states than slots", READERS_BOUND, &long_lists::readers(6), true);
    heading("Search, reads made to be slow");
    for (name, file) in slow_reads::all() {
        line(report, &name, READS_BOUND, &file, false);
    }
    heading("Search, reads of tied variables");
    for line in slow_reads::tied() {
        budget_line(report, &line.name, READS_BOUND.within(line.longest), &line.file);
    }
}

/// The exchanges with their names.
pub fn examples() -> Vec<(&'static str, Vec<u8>)> {
    EXAMPLES.iter().map(|(name, text)| (*name, bytes(text))).collect()
}

fn heading(name: &str) {
    let [proved, rust, plain] = ["proved", "Rust", "Rust, no memory"];
    println!("{name:46} {:>13} {proved:>21} {rust:>21} {:>6} {plain:>21}", "traces", "ratio");
}

/// Times a file whose claims hold. The ratio is that of the library's time to that of Rust with the same memory.
fn line(report: &mut Report, name: &str, bound: Bound, file: &[u8], with_speed: bool) {
    let answer = search(Listing::Full, file, &mut [0; 128]);
    assert_eq!(word(answer), HELD, "{name}: not held");
    let traces = number(answer);
    let (_, first) = called(name, Listing::Full, &with_budget(file, FIRST), [true; 3]);
    let estimate = first[2].unwrap() * (traces as f64 / f64::from(FIRST)).max(1.0);
    let whole = estimate < LONGEST;
    let (again, times) = timed(name, Listing::Full, file, [true, true, whole]);
    assert_eq!(answer, again, "{name}: not the same answer again");
    let pair = judged(report, name, bound, file, times);
    let speed = |time: f64| if with_speed { speed(traces, time) } else { String::new() };
    let figure = |time: f64| format!("{} {:>10}", duration(time), speed(time));
    let plain = times[2].map_or_else(|| format!("~ {}", figure(estimate)), figure);
    println!("{name:46} {traces:13} {:>21} {:>21} {:>6} {plain:>21}", figure(pair[0]), figure(pair[1]), ratio(pair));
}

/// Times a file by the library and by Rust with the same memory, whether its claims hold or its budget ends first.
fn budget_line(report: &mut Report, name: &str, bound: Bound, file: &[u8]) {
    let (answer, times) = timed(name, Listing::Full, file, BOTH);
    let pair = judged(report, name, bound, file, times);
    println!("{name:46} {:13} {:>21} {:>21} {:>6}", number(answer), duration(pair[0]), duration(pair[1]), ratio(pair));
}

/// The times of the library and of Rust with the same memory that count for a line of the full list.
fn judged(report: &mut Report, name: &str, bound: Bound, file: &[u8], times: Times) -> Pair {
    report.judge(name, bound, paired(times), || paired(timed(name, Listing::Full, file, BOTH).1))
}
