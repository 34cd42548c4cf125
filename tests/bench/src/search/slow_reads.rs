//! Files that are slow for a walk which tries values one by one although their lists are short: the parts of a read contradict each other, while
//! each by itself is possible.
use library::pigeonholes::{self, Beside, Shape, Source};
use library::reads;
use library::scenarios::with_budget;

/// The files with their names.
pub fn all() -> Vec<(String, Vec<u8>)> {
    let mut files = vec![];
    for n in [2, 7, 20, 60] {
        files.push((format!("parts that contradict, {n} constants"), reads::contradictory(n)));
    }
    for n in [5, 20, 50] {
        files.push((format!("no known value after {n} agents"), reads::unknown_value(n)));
    }
    for (several, n) in [(0, 50), (5, 30)] {
        files.push((format!("{} built or known, {n} constants", several + 2), reads::built_or_known(several, n)));
    }
    for (length, free) in [(3, 5), (5, 3), (7, 1)] {
        files.push((format!("cycle of {length} in two halves, {free} free"), reads::cycle(free, length, 3)));
    }
    files.push(("cycle of 8 in two halves, 512 ways".to_string(), reads::cycle(0, 8, 2)));
    files.push(("four in three parts, 4 free".to_string(), reads::four_in_three_parts()));
    files.push(("four in three parts, one way, 4 free".to_string(), four_in_rising_parts()));
    files
}

/// Four variables all tied to each other, of constants in three parts of which each is tied to the later ones alone.
fn four_in_rising_parts() -> Vec<u8> {
    let pairs = |count: usize| (0..count * count).map(move |e| (e / count, e % count));
    let tied: Vec<_> = pairs(4).filter(|(i, j)| i < j).collect();
    let known: Vec<_> = pairs(8).filter(|(i, j)| i / 3 < j / 3).collect();
    reads::tied(4, &tied, &known)
}

/// A file with a budget, and what a call may take in milliseconds.
pub struct Tied {
    pub name: String,
    pub file: Vec<u8>,
    pub longest: f64,
}

// What a test of a read may take in milliseconds. With a budget of 1 a call has one for each run that reads, and little else.
const TEST: f64 = 20.0;

/// Reads of variables that are all tied to each other, in one to four runs.
pub fn tied() -> Vec<Tied> {
    let mut lines = vec![];
    for (variables, constants) in [(6, 5), (7, 6), (8, 7)] {
        let name = format!("{variables} over {constants}");
        let shape = Shape::new(variables, constants);
        for readers in 1..=4 {
            lines.push(read(&name, &shape, readers, Beside::Values, 1));
        }
        for budget in [10, 1_000] {
            for readers in 1..=3 {
                let beside = if budget == 10 || readers == 3 { Beside::Values } else { Beside::Claims };
                lines.push(read(&name, &shape, readers, beside, budget));
            }
            lines.push(read(&name, &shape, 0, Beside::ClaimsFirst, budget));
        }
    }
    lines.extend(slowest());
    lines
}

/// The slowest of some hundreds, and of each sort one.
fn slowest() -> Vec<Tied> {
    let in_parts = |variables, constants, parts, seed| Shape { parts, seed, ..Shape::new(variables, constants) };
    let copied = Shape { source: Source::Copied, ..Shape::new(7, 6) };
    let nested = Shape { nested: true, ..in_parts(6, 6, 5, 669) };
    let sent = Shape { source: Source::Sent, ..in_parts(8, 9, 7, 423) };
    let own = Shape { source: Source::Own, ..Shape::new(6, 5) };
    let threes = Shape { threes: true, ..Shape::new(5, 4) };
    let given = |budget: u32, longest: f64| {
        let file = with_budget(&pigeonholes::six_over_seven(), budget);
        Tied { name: format!("6 over 7, as given, budget {budget}"), file, longest }
    };
    // The first trace after which the copies have given all ties is the ninth, so a call with this budget has one long test.
    let one_test = Tied { longest: TEST, ..read("7 over 6, copied", &copied, 1, Beside::Values, 9) };
    vec![
        given(1, 100.0),
        given(10, f64::INFINITY),
        read("6 over 7 in 5 parts", &in_parts(6, 7, 5, 282), 1, Beside::Claims, 1),
        read("6 over 7 in 5 parts", &in_parts(6, 7, 5, 282), 3, Beside::Values, 10),
        read("5 over 8 in 4 parts", &in_parts(5, 8, 4, 0), 3, Beside::Claims, 10),
        read("6 over 6 in 5 parts, nested", &nested, 2, Beside::Values, 1),
        read("8 over 9 in 7 parts, some sent", &sent, 2, Beside::Values, 10),
        read("6 over 5, all sent", &own, 1, Beside::Values, 1_000),
        read("5 over 4, ties of three", &threes, 3, Beside::Values, 10),
        one_test,
        read("7 over 6, copied", &copied, 1, Beside::Values, 1_000),
        read("7 over 6, copied", &copied, 2, Beside::Values, 1_000),
        read("7 over 7, copied", &Shape { constants: 7, ..copied }, 1, Beside::Values, 1_000),
    ]
}

fn read(name: &str, shape: &Shape, readers: usize, beside: Beside, budget: u32) -> Tied {
    let runs = if readers == 0 { "4 later".to_string() } else { readers.to_string() };
    let longest = if budget == 1 { TEST * readers as f64 } else { f64::INFINITY };
    Tied { name: format!("{name}, {runs} read, budget {budget}"), file: pigeonholes::file(shape, readers, beside, budget), longest }
}
