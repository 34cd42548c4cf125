//! Library and Rust give the same answers and traces on every file of the benchmark, by either list, with small budgets and with as large ones as are
//! quick.
use super::timing::{called, Times, BOTH};
use super::walk::Listing;
use super::{exchanges, lines, long_lists, slow_reads};
use crate::open;
use library::answer::{number, word, HELD};
use library::scenarios::with_budget;

const BUDGETS: [u32; 8] = [0, 1, 10, 100, 1_000, 30_000, 1_000_000, u32::MAX];

// Once a call has taken so long, in nanoseconds, no larger budget is tried.
const LONG: f64 = 2e7;

/// Compares the answers of a file by a list, with each budget that is quick and with those around the list's length.
fn agree(name: &str, listing: Listing, file: &[u8]) -> usize {
    let agree_with = |budget: u32| called(name, listing, &with_budget(file, budget), BOTH);
    let mut count = 0;
    for budget in BUDGETS {
        let (answer, times) = agree_with(budget);
        count += 1;
        if word(answer) == HELD {
            let traces = number(answer) as u32;
            for near in [traces - 1, traces, traces.saturating_add(1)] {
                agree_with(near);
                count += 1;
            }
            return count;
        }
        if longest(times) > LONG {
            return count;
        }
    }
    count
}

fn longest(times: Times) -> f64 {
    times.iter().flatten().fold(0.0, |longest: f64, &time| longest.max(time))
}

/// Compares the answers of all files by both lists, those that differ in their budget once.
fn all_agree(files: Vec<(String, Vec<u8>)>) {
    let mut seen: Vec<Vec<u8>> = vec![];
    let mut count = 0;
    for (name, file) in files {
        if seen.contains(&file[5..].to_vec()) {
            continue;
        }
        seen.push(file[5..].to_vec());
        count += agree(&name, Listing::Full, &file) + agree(&name, Listing::Short, &file);
    }
    println!("{} files, {count} answers", seen.len());
}

fn named(files: Vec<(&str, Vec<u8>)>) -> Vec<(String, Vec<u8>)> {
    files.into_iter().map(|(name, file)| (name.to_string(), file)).collect()
}

#[test]
fn on_exchanges() {
    all_agree(named(lines::examples()));
    all_agree(named(exchanges::all()));
}

#[test]
fn on_long_lists() {
    all_agree(named(long_lists::all()));
    all_agree(named(vec![("four readers", long_lists::readers(6)), ("four readers, fewer values", long_lists::readers(2))]));
}

#[test]
fn on_slow_reads() {
    all_agree(slow_reads::all());
}

#[test]
fn on_tied_reads() {
    let files: Vec<_> = slow_reads::tied().into_iter().map(|line| (line.name, line.file)).collect();
    for (name, file) in &files {
        assert_eq!(open::open(file), open::ACCEPTED, "{name}");
    }
    all_agree(files);
}
