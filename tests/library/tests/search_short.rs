//! The two searches of the proved library against each other: the same word, a short list that is never longer, and equal lists of reads.
use library::random::Random;
use library::reads;
use library::scenarios::{near, reads_only, scenario, with_budget};
use library::searches::{agrees, answered, assert_many, examples, kind, number, replays};
use reference::Listing::{self, Short};
use std::collections::BTreeMap;

/// A budget that reaches the end of most lists here.
const REACHING: u32 = 100_000;

/// The verdicts by both lists, the full one first.
fn both(file: &[u8]) -> [String; 2] {
    Listing::BOTH.map(|listing| answered(listing, file, 128))
}

/// Both words, which are the same if the budget reaches the ends of both lists. The short list's trace replays, and the list is never longer.
fn same_word(file: &[u8]) -> String {
    let [full, short] = both(file);
    replays(file, &short);
    let words = [&full, &short].map(|verdict| kind(verdict)).join(" ");
    let holds = match words.as_str() {
        "HELD HELD" => number(&short) <= number(&full),
        "BROKEN BROKEN" => true,
        // The budget does not reach the end of the full list.
        "STOPPED HELD" | "STOPPED BROKEN" | "STOPPED STOPPED" | "BROKEN STOPPED" => true,
        _ => false,
    };
    assert!(holds, "{full} and {short}: {}", reference::hexadecimal(file));
    if words == "HELD HELD" && number(&short) < number(&full) { "HELD HELD, shorter".to_string() } else { words }
}

#[test]
fn random_scenarios_have_the_same_word() {
    let mut random = Random::new(14);
    let mut words = BTreeMap::new();
    for _ in 0..10_000 {
        let file = with_budget(&scenario(&mut random), REACHING);
        *words.entry(same_word(&file)).or_insert(0) += 1;
    }
    assert_many(&words, &["BROKEN BROKEN", "HELD HELD", "HELD HELD, shorter"]);
}

/// Here claims are broken late.
#[test]
fn files_near_examples_have_the_same_word() {
    let examples = examples();
    let mut random = Random::new(15);
    let mut words = BTreeMap::new();
    for round in 0..1_000 {
        let (_, file, _) = &examples[round % examples.len()];
        let file = with_budget(&near(&mut random, file), REACHING);
        *words.entry(same_word(&file)).or_insert(0) += 1;
    }
    assert_many(&words, &["BROKEN BROKEN", "HELD HELD, shorter"]);
}

#[test]
fn every_example_has_its_word_by_the_short_list() {
    for (name, file, stated) in examples() {
        let verdict = agrees(Short, &file, 128);
        assert_eq!(kind(&verdict), kind(&stated), "{name}");
        replays(&file, &verdict);
        let number = number(&verdict);
        assert_eq!(agrees(Short, &with_budget(&file, number), 128), verdict, "{name}");
        assert_eq!(agrees(Short, &with_budget(&file, number - 1), 128), format!("STOPPED {}", number - 1), "{name}");
    }
}

/// The verdict by both lists of a scenario of reads only, which are equal.
fn same_verdict(file: &[u8], budget: u32) -> String {
    let [full, short] = both(&with_budget(file, budget));
    assert_eq!(short, full, "budget {budget}: {}", reference::hexadecimal(file));
    full
}

#[test]
fn reads_only_have_the_same_verdict() {
    let mut random = Random::new(16);
    let mut words = BTreeMap::new();
    for round in 0..4_000 {
        let file = if round % 4 == 0 { reads::random(&mut random) } else { reads_only(&mut random) };
        for budget in [0, 1, 20, 300, REACHING] {
            let verdict = same_verdict(&file, budget);
            *words.entry(if verdict == "HELD 1" { verdict } else { kind(&verdict) }).or_insert(0) += 1;
        }
    }
    assert_many(&words, &["HELD", "STOPPED"]);
    assert!(words.keys().all(|word| ["HELD 1", "HELD", "STOPPED"].contains(&word.as_str())), "{words:?}");
}

/// More states than the memory has slots.
#[test]
fn long_lists_of_reads_have_the_same_verdict() {
    for file in [reads::values(4, 3, 5), reads::values(2, 5, 4)] {
        let length = number(&same_verdict(&file, u32::MAX));
        for (budget, verdict) in [(length, format!("HELD {length}")), (length - 1, format!("STOPPED {}", length - 1))] {
            assert_eq!(same_verdict(&file, budget), verdict);
        }
    }
}
