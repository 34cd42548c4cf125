//! The sides that search a list, called and timed in turn, and times as text.
use super::walk::{plain_search, search, Listing};
use crate::bounds::Pair;
use std::time::Instant;

pub type Side = fn(Listing, &[u8], &mut [u8]) -> u64;

/// The library, Rust with the same memory, and Rust without. Times stand in the same order.
pub const SIDES: [Side; 3] = [proved, search, plain_search];

/// The library and Rust with the same memory.
pub const BOTH: [bool; 3] = [true, true, false];

/// The least time of a call in nanoseconds, of each side that was called.
pub type Times = [Option<f64>; 3];

// What a round and a line may take in nanoseconds: a round has as many calls as fit, and a line as many rounds, up to 30. Where none fits, the first
// call of each side counts.
const ROUND: f64 = 2e7;
const LINE: f64 = 5e9;

/// The library's packed answer; the trace of a broken claim at the buffer's front.
fn proved(listing: Listing, file: &[u8], buffer: &mut [u8]) -> u64 {
    match listing {
        Listing::Full => library::search(file, buffer),
        Listing::Short => library::search_short(file, buffer),
    }
}

/// The answer of the sides that are called, which must be the same with the same trace, and what one call takes.
pub fn called(name: &str, listing: Listing, file: &[u8], which: [bool; 3]) -> (u64, Times) {
    let mut given = None;
    let mut times = [None; 3];
    for (i, side) in SIDES.iter().enumerate().filter(|&(i, _)| which[i]) {
        let mut buffer = [0; 128];
        let begin = Instant::now();
        let answer = side(listing, file, &mut buffer);
        times[i] = Some(begin.elapsed().as_nanos() as f64);
        assert_eq!(*given.get_or_insert((answer, buffer)), (answer, buffer), "{name}: the sides answer differently");
    }
    (given.expect("a side that is called").0, times)
}

/// The same answer, and the times over rounds that take turns.
pub fn timed(name: &str, listing: Listing, file: &[u8], which: [bool; 3]) -> (u64, Times) {
    let (answer, mut best) = called(name, listing, file, which);
    let calls = best.map(|time| (ROUND / time.unwrap_or(ROUND)).clamp(1.0, 1000.0));
    let turn: f64 = best.iter().flatten().map(|time| time.max(ROUND)).sum();
    for _ in 0..(LINE / turn).min(30.0) as usize {
        for ((side, best), calls) in SIDES.iter().zip(&mut best).zip(calls) {
            let round = || crate::round(calls as usize, &mut || side(listing, file, &mut [0; 128]));
            *best = best.map(|time| time.min(round()));
        }
    }
    (answer, best)
}

/// The times of the library and of Rust with the same memory, which both were called.
pub fn paired([proved, rust, _]: Times) -> Pair {
    [proved, rust].map(|time| time.expect("a side that was called"))
}

pub fn ratio([proved, rust]: Pair) -> String {
    format!("{:.2}", proved / rust)
}

pub fn duration(nanoseconds: f64) -> String {
    match nanoseconds {
        t if t < 1e6 => format!("{:.1} µs", t / 1e3),
        t if t < 1e9 => format!("{:.2} ms", t / 1e6),
        t if t < 3e11 => format!("{:.2} s", t / 1e9),
        t if t < 6e12 => format!("{:.0} min", t / 6e10),
        t => format!("{:.1} h", t / 3.6e12),
    }
}

pub fn speed(traces: u64, nanoseconds: f64) -> String {
    match traces as f64 / nanoseconds * 1e9 {
        s if s < 1e6 => format!("{:.1} k/s", s / 1e3),
        s if s < 1e9 => format!("{:.2} M/s", s / 1e6),
        s => format!("{:.1} G/s", s / 1e9),
    }
}
