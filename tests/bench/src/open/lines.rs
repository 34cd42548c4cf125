//! The lines of Open: ten thousand files, small and full, valid and damaged, and files made to be slow.
use super::files::{damaged, full, seeds, valid};
use super::open;
use crate::bounds::{Bound, Report};
use crate::compare;
use library::random::Random;
use library::slow;

// Files of each of the two groups.
const SMALL: usize = 3500;
const FULL: usize = 1500;

const BOUND: Bound = Bound::ratio(1.3);
const FULL_BOUND: Bound = Bound::ratio(1.1);

// What a file may take, in milliseconds.
const LONGEST: f64 = 15.0;

/// Files that are timed together, so many times a round.
pub struct Group {
    name: String,
    bound: Bound,
    calls: usize,
    pub files: Vec<Vec<u8>>,
}

pub fn run(report: &mut Report) {
    println!("{:44} {:>13} {:>13}", "Open, all files of a group", "proved", "Rust");
    for Group { name, bound, calls, files } in groups() {
        let sum = |open: fn(&[u8]) -> u64| files.iter().fold(0u64, |sum, file| sum.wrapping_add(open(file)));
        let bound = bound.within(LONGEST * files.len() as f64);
        compare(report, &format!("{name}, {} files", files.len()), bound, calls, || sum(library::open), || sum(open));
    }
}

pub fn groups() -> Vec<Group> {
    let mut random = Random::new(7);
    let small = seeds();
    let full: Vec<_> = (0..25).map(|_| full(&mut random)).collect();
    let group = |name: &str, bound: Bound, calls: usize, files: Vec<Vec<u8>>| Group { name: name.to_string(), bound, calls, files };
    let mut groups = vec![
        group("small valid", BOUND, 2, valid(&mut random, &small, SMALL)),
        group("small damaged", BOUND, 2, damaged(&mut random, &small, SMALL)),
        group("full valid", FULL_BOUND, 1, valid(&mut random, &full, FULL)),
        group("full damaged", FULL_BOUND, 1, damaged(&mut random, &full, FULL)),
    ];
    for levels in [8, 12, 16, 18] {
        groups.push(group(&format!("a pattern of {levels} levels that doubles"), BOUND, 10, vec![slow::doubling(levels)]));
    }
    groups.extend(slow_files().into_iter().map(|(name, file)| group(name, BOUND, 4, vec![file])));
    groups
}

/// Files of four roles, each with the slowest read known of its sort, and the slowest that searches found.
fn slow_files() -> Vec<(&'static str, Vec<u8>)> {
    let [four_roles, four_that_read_more, one_role] = slow::climbed();
    vec![
        ("16 levels, two that count", slow::levelled(16, &slow::all_choices(&[15, 0], false), 4)),
        ("15 levels, three that count", slow::levelled(15, &slow::all_choices(&[14, 7, 0], false), 4)),
        ("15 levels, three, one way not readable", slow::levelled(15, &slow::all_choices(&[14, 7, 0], true), 4)),
        ("12 levels, four that count", slow::levelled(12, &slow::all_choices(&[11, 7, 4, 0], false), 4)),
        ("12 levels, each tied to the next", slow::levelled(12, &slow::chained(&slow::crossed(12)), 4)),
        ("found by a search over tables, one role", slow::found()),
        ("found by a second one, four roles", four_roles),
        ("found by a third one, four roles", four_that_read_more),
        ("found by a fourth one, one role", one_role),
    ]
}
