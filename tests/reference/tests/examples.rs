//! The files of examples/: each has the verdict that its first line states and the table in its
//! README gives, the verdict by the short list that its second line states, and no row too many.

use reference::{answer, hexadecimal, open, stated_short, stated_verdict, uncommented, Scenario};
use std::collections::BTreeSet;
use std::path::PathBuf;

const README: &str = include_str!("../../../examples/README.md");

struct Example {
    name: String,
    file: Vec<u8>,
    verdict: String,
    short: String,
}

fn examples() -> Vec<Example> {
    let folder = PathBuf::from(env!("CARGO_MANIFEST_DIR")).join("../../examples");
    let mut examples: Vec<Example> = std::fs::read_dir(folder)
        .expect("the folder of examples")
        .map(|entry| entry.expect("an entry of the folder").path())
        .filter(|path| path.extension().is_some_and(|end| end == "hex"))
        .map(|path| {
            let name = path.file_name().unwrap().to_str().unwrap().to_string();
            let text = std::fs::read_to_string(&path).unwrap();
            Example {
                file: uncommented(&text).unwrap_or_else(|| panic!("{name}: no digits")),
                verdict: stated_verdict(&text)
                    .unwrap_or_else(|| panic!("{name}: no verdict"))
                    .to_string(),
                short: stated_short(&text)
                    .unwrap_or_else(|| panic!("{name}: no verdict by the short list"))
                    .to_string(),
                name,
            }
        })
        .collect();
    examples.sort_by(|one, other| one.name.cmp(&other.name));
    assert!(examples.len() >= 19);
    examples
}

fn verdict(file: &[u8]) -> String {
    answer(&format!("0 search {} 128", hexadecimal(file)))
}

fn short_verdict(file: &[u8]) -> String {
    answer(&format!("3 short {} 128", hexadecimal(file)))
}

/// The word of a verdict and its number.
fn word_and_number(verdict: &str) -> (&str, u32) {
    let mut fields = verdict.split(' ');
    let mut next = || fields.next().unwrap();
    (next(), next().parse().unwrap())
}

/// The same file with another budget.
fn with_budget(file: &[u8], budget: u32) -> Vec<u8> {
    [&file[..1], &budget.to_be_bytes(), &file[5..]].concat()
}

#[test]
fn every_example_has_its_verdict() {
    for Example {
        name,
        file,
        verdict: stated,
        short,
    } in examples()
    {
        assert_eq!(verdict(&file), stated, "{name}");
        assert_eq!(short_verdict(&file), short, "{name}");
    }
}

#[test]
fn one_trace_less_stops_every_example() {
    for Example {
        name,
        file,
        verdict: stated,
        ..
    } in examples()
    {
        let (_, number) = word_and_number(&stated);
        let less = format!("STOPPED {}", number - 1);
        assert_eq!(verdict(&with_budget(&file, number)), stated, "{name}");
        assert_eq!(verdict(&with_budget(&file, number - 1)), less, "{name}");
    }
}

#[test]
fn the_short_list_gives_every_example_its_word_no_later() {
    for Example {
        name,
        verdict: stated,
        short,
        ..
    } in examples()
    {
        let ((full_word, full), (word, number)) =
            (word_and_number(&stated), word_and_number(&short));
        assert_eq!(word, full_word, "{name}: {short}");
        assert!(number <= full, "{name}: {short}");
    }
}

#[test]
fn the_first_example_is_p1() {
    let p1 = "0100000064000f010000010100050000050100070000\
        000f03020304020001010402020004000000030000010000";
    let examples = examples();
    let example = examples.iter().find(|example| example.name == "p1.hex");
    assert_eq!(hexadecimal(&example.unwrap().file), p1);
}

/// The rows that a scenario speaks of: beneath those of its roles, runs and knowledge, and the
/// intruder constants, which are known anyway.
fn needed_rows(scenario: &Scenario) -> BTreeSet<usize> {
    let roles = scenario.roles.iter();
    let of_roles = roles.flat_map(|role| {
        let events = role.events.iter().map(|event| event.row);
        events.chain(role.knowledge.iter().copied())
    });
    let of_runs = scenario.runs.iter().flat_map(|run| run.agents.clone());
    let rows = of_roles.chain(of_runs).chain(scenario.knowledge.clone());
    rows.flat_map(|row| scenario.table.beneath(row))
        .chain(scenario.table.rows_of_kind(4))
        .collect()
}

#[test]
fn every_row_is_needed_and_every_agent_takes_part() {
    for Example { name, file, .. } in examples() {
        let scenario = open(&file).unwrap();
        let table = &scenario.table;
        let needed = needed_rows(&scenario);
        let taking_part = |row| scenario.runs.iter().any(|run| run.agents.contains(&row));
        for row in (0..).take_while(|&row| table.has(row)) {
            assert!(needed.contains(&row), "{name}: row {row:02x}");
            let is_agent = table.row(row).unwrap().is_agent();
            assert!(!is_agent || taking_part(row), "{name}: row {row:02x}");
        }
    }
}

#[test]
fn the_readme_gives_every_verdict() {
    for Example {
        name,
        verdict,
        short,
        ..
    } in examples()
    {
        let words = |verdict: &str| verdict.split(" TRACE").next().unwrap().to_string();
        let cells = format!("| {} | {} |", words(&verdict), words(&short));
        let line = README
            .lines()
            .find(|line| line.contains(&format!("`{name}`")));
        let line = line.unwrap_or_else(|| panic!("{name} is not in the table"));
        assert!(line.contains(&cells), "{name}: {line}");
    }
}
