//! Times the proved library against Rust with the same analysis: best of several rounds of each, taken in turn, and the ratio, which has a bound.
mod bounds;
mod derive;
mod knowledge;
mod open;
mod replay;
mod search;
#[cfg(test)]
mod tests;

use bounds::{Bound, Pair, Report};
use std::process::ExitCode;

const SECTIONS: [(&str, fn(&mut Report)); 5] =
    [("derive", derive::run), ("open", open::run), ("replay", replay::run), ("search", search::run), ("short", search::run_short)];

/// Times the sections that are named, or all. Fails if a line is above its bound.
fn main() -> ExitCode {
    let asked: Vec<String> = std::env::args().skip(1).collect();
    if let Some(unknown) = asked.iter().find(|asked| SECTIONS.iter().all(|(name, _)| name != asked)) {
        eprintln!("no section {unknown}: there are {}", SECTIONS.map(|(name, _)| name).join(", "));
        return ExitCode::from(2);
    }
    let mut report = Report::default();
    for (name, run) in SECTIONS {
        if asked.is_empty() || asked.iter().any(|asked| asked == name) {
            run(&mut report);
        }
    }
    report.end()
}

/// Times a line of so many calls a round, and judges it. Times are those of one call.
fn compare(report: &mut Report, name: &str, bound: Bound, calls: usize, mut proved: impl FnMut() -> u64, mut rust: impl FnMut() -> u64) {
    assert_eq!(proved(), rust(), "{name}: the two sides answer differently");
    let mut timed = || turns(calls, &mut proved, &mut rust);
    let first = timed();
    let [proved, rust] = report.judge(name, bound, first, timed);
    println!("{name:44} {proved:10.0} ns {rust:10.0} ns  ratio {:.2}", proved / rust);
}

/// The least times of one call, over rounds of the sides that take turns.
fn turns(calls: usize, proved: &mut impl FnMut() -> u64, rust: &mut impl FnMut() -> u64) -> Pair {
    let mut best = [f64::MAX; 2];
    for _ in 0..30 {
        best[0] = best[0].min(round(calls, proved));
        best[1] = best[1].min(round(calls, rust));
    }
    best
}

fn round(calls: usize, work: &mut impl FnMut() -> u64) -> f64 {
    let begin = std::time::Instant::now();
    for _ in 0..calls {
        std::hint::black_box(work());
    }
    begin.elapsed().as_nanos() as f64 / calls as f64
}
