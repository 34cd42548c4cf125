//! The lines of the short list: exchanges in four runs, searched through the full and through the short list.
use super::exchanges;
use super::timing::{duration, paired, ratio, timed, BOTH};
use super::walk::{counted, Listing};
use crate::bounds::{Bound, Report};
use library::answer::{word, HELD, STOPPED};

/// The budget of the files.
const LARGEST: u32 = u32::MAX;

// A short search that takes less, in nanoseconds, is counted as quick.
const QUICK: f64 = 1e7;

const BOUND: Bound = Bound::ratio(1.3);

pub fn run(report: &mut Report) {
    heading("Search, full and short list of four runs");
    let mut quick = 0;
    for (name, file) in exchanges::all() {
        let (full, _) = line(report, name, Listing::Full, &file);
        let (short, time) = line(report, name, Listing::Short, &file);
        quick += usize::from([word(full), word(short)] == [STOPPED, HELD] && time < QUICK);
    }
    println!("full list above 2^32 - 1, and short list HELD within {} by the library: {quick}", duration(QUICK));
}

fn heading(name: &str) {
    let [list, traces, states, answer] = ["list", "traces", "states", "answer"];
    let [proved, rust, ratio] = ["proved", "Rust", "ratio"];
    println!("{name:46} {list:5} {traces:>20} {states:>7} {answer:>8} {proved:>10} {rust:>10} {ratio:>6}");
}

/// Times a list that breaks no claim, and gives the library's answer and time. The line has the list's exact length, and the states that the search
/// meets until it ends.
fn line(report: &mut Report, name: &str, listing: Listing, file: &[u8]) -> (u64, f64) {
    let (traces, _) = counted(listing, file, u128::MAX);
    let (_, states) = counted(listing, file, LARGEST.into());
    let measure = || timed(name, listing, file, BOTH);
    let (answer, times) = measure();
    assert_eq!(answer, held_or_stopped(traces), "{name}: {listing:?}");
    let list = format!("{listing:?}").to_lowercase();
    let word = if word(answer) == HELD { "HELD" } else { "STOPPED" };
    let pair = report.judge(&format!("{name}, {list} list"), BOUND, paired(times), || paired(measure().1));
    let [proved, rust, ratio] = [duration(pair[0]), duration(pair[1]), ratio(pair)];
    println!("{name:46} {list:5} {traces:20} {states:7} {word:>8} {proved:>10} {rust:>10} {ratio:>6}");
    (answer, pair[0])
}

/// The answer for a list of so many traces that breaks no claim, with the largest budget.
fn held_or_stopped(traces: u128) -> u64 {
    u32::try_from(traces).map_or(STOPPED << 60 | u64::from(LARGEST), |traces| HELD << 60 | u64::from(traces))
}
