//! Search of the proved library, by the full list and by the short one, against the cases, the examples and the reference program.
use library::random::Random;
use library::reads;
use library::scenarios::{framed, near, scenario, with_budget};
use library::searches::{agrees, agrees_around, agrees_damaged, answered, assert_many, cases, examples, number, replays};
use reference::Listing::{self, Full, Short};
use std::collections::BTreeMap;

/// P1: one role that sends its local constant in the clear and claims it secret.
const P1: &str = "0100000064000f010000010100050000050100070000000f03020304020001010402020004000000030000010000";

/// P2: it sends the constant under the public key of role 1.
const P2: &str = "01000000640015010000010100050000050100070000080300\
    0c040500100402030405020001010602020004000000030000010000";

#[test]
fn every_case_has_its_answer() {
    for (listing, least) in [(Full, 400), (Short, 500)] {
        let cases = cases(listing);
        assert!(cases.len() >= least, "only {} cases", cases.len());
        for (file, length, answer) in cases {
            assert_eq!(answered(listing, &file, length), answer, "{listing:?} {}", reference::hexadecimal(&file));
            replays(&file, answer);
        }
    }
}

// Above this number of traces an example is searched once only.
const LONG: u32 = 1_000_000;

#[test]
fn every_example_has_its_verdict() {
    for (name, file, verdict) in examples() {
        assert_eq!(answered(Full, &file, 128), verdict, "{name}");
        replays(&file, &verdict);
        let number = number(&verdict);
        if number <= LONG {
            assert_eq!(answered(Full, &with_budget(&file, number), 128), verdict, "{name}");
            assert_eq!(answered(Full, &with_budget(&file, number - 1), 128), format!("STOPPED {}", number - 1), "{name}");
        }
    }
}

/// So many random scenarios and their damaged files answer as by the reference.
fn random_scenarios(listing: Listing, seed: u64, rounds: usize) {
    let mut random = Random::new(seed);
    let (mut words, mut damaged) = (BTreeMap::new(), BTreeMap::new());
    for _ in 0..rounds {
        let file = scenario(&mut random);
        let budget = random.pick(&[50, 300, 300, 3000]);
        *words.entry(agrees_around(listing, &mut random, &file, budget)).or_insert(0) += 1;
        *damaged.entry(agrees_damaged(listing, &mut random, &file, 300)).or_insert(0) += 1;
    }
    assert_many(&words, &["BROKEN", "HELD", "STOPPED"]);
    assert_many(&damaged, &["REFUSED 3", "REFUSED 4", "REFUSED 5", "REFUSED 6", "REFUSED 7", "REFUSED 8", "REFUSED 9", "REFUSED 10"]);
}

#[test]
fn random_scenarios_answer_as_the_reference() {
    random_scenarios(Full, 9, 6_000);
}

#[test]
fn random_scenarios_answer_as_the_reference_by_the_short_list() {
    random_scenarios(Short, 13, 10_000);
}

/// Changed examples and cases, in which claims are broken late.
#[test]
fn files_near_examples_and_cases_answer_as_the_reference() {
    let mut random = Random::new(10);
    let examples: Vec<Vec<u8>> = examples().into_iter().map(|(_, file, _)| file).collect();
    for listing in Listing::BOTH {
        let mut files: Vec<Vec<u8>> = cases(listing).into_iter().map(|(file, ..)| file).collect();
        files.retain(|file| reference::open(file).is_ok());
        let mut words = BTreeMap::new();
        for round in 0..1_500 {
            let from = if round % 2 == 0 { &examples } else { &files };
            let at = random.below(from.len());
            let file = near(&mut random, &from[at]);
            let budget = random.pick(&[300, 1000, 3000]);
            *words.entry(agrees_around(listing, &mut random, &file, budget)).or_insert(0) += 1;
        }
        assert_many(&words, &["BROKEN", "HELD", "STOPPED"]);
    }
}

#[test]
fn refused_calls_write_nothing() {
    let p1 = reference::bytes(P1).unwrap();
    for listing in Listing::BOTH {
        for length in 0..128 {
            assert_eq!(agrees(listing, &p1, length), format!("REFUSED 10 {length}"));
        }
        for end in 0..p1.len() {
            for length in [0, 127, 128, 200] {
                let expected = if end == 0 { "REFUSED 1 0".to_string() } else { format!("REFUSED 3 {end}") };
                assert_eq!(agrees(listing, &p1[..end], length), expected);
            }
        }
    }
}

/// One run's sends and claims come in one order, so both lists are equal.
#[test]
fn budgets_at_their_ends() {
    let (p1, p2) = (reference::bytes(P1).unwrap(), reference::bytes(P2).unwrap());
    let broken = "BROKEN 3 RUN 1 EVENT 1 TRACE 01000100";
    for listing in Listing::BOTH {
        for (budget, verdict) in [(0, "STOPPED 0"), (1, "STOPPED 1"), (2, "STOPPED 2"), (3, "HELD 3"), (4, "HELD 3"), (u32::MAX, "HELD 3")] {
            assert_eq!(agrees(listing, &with_budget(&p2, budget), 128), verdict);
        }
        for (budget, verdict) in [(0, "STOPPED 0"), (2, "STOPPED 2"), (3, broken), (4, broken), (u32::MAX, broken)] {
            assert_eq!(agrees(listing, &with_budget(&p1, budget), 128), verdict);
        }
    }
}

/// Rows 4 to 11 are fresh variables; row 12 is an intruder constant, row 13 a global one.
fn eight_variables() -> Vec<u8> {
    let mut rows = vec![1, 0, 0, 2, 0, 0, 5, 0, 0, 5, 1, 0];
    rows.extend((0..8).flat_map(|v| [6, v, 1]));
    rows.extend([4, 0, 0, 3, 0, 0]);
    rows
}

/// Four runs of eight events, each setting eight variables: the last of the 32 moves is the only claim that is judged.
#[test]
fn a_trace_may_need_all_128_bytes() {
    // Row 14 is the pair of the first two variables.
    let rows = [eight_variables(), vec![11, 4, 5]].concat();
    let reads = |rows: &[u8]| -> Vec<u8> { rows.iter().flat_map(|&row| [1, 0, 1, row]).collect() };
    let reader = [vec![2, 2, 3, 8], reads(&[4, 5, 6, 7, 8, 9, 10, 11])].concat();
    let claimer = [vec![2, 2, 3, 8], reads(&[14, 6, 7, 8, 9, 10, 11]), vec![2, 0, 0, 4]].concat();
    // Three readers with an untrusted agent, then the claimer.
    let runs = [0, 0, 1, 0, 0, 1, 0, 0, 1, 1, 0, 0];
    let file = framed(100, [&rows, &[reader, claimer].concat(), &runs, &[0, 1]]);
    for listing in Listing::BOTH {
        let verdict = agrees(listing, &file, 128);
        assert!(verdict.starts_with("BROKEN 33 RUN 4 EVENT 7 TRACE "), "{verdict}");
        assert_eq!(verdict.split(' ').last().unwrap().len(), 256);
        replays(&file, &verdict);
        for length in [129, 200, 256] {
            assert_eq!(agrees(listing, &file, length), verdict);
        }
        assert_eq!(agrees(listing, &file, 127), "REFUSED 10 127");
    }
}

/// Eight variables under a key that stays unknown, with more than a hundred values for each.
#[test]
fn hopeless_choices_are_not_tried() {
    let mut rows = eight_variables();
    rows.extend((0..60).flat_map(|c| [7, c, 0]));
    rows.extend([11, 10, 11]);
    for i in 0..6 {
        rows.extend([11, 9 - i, 74 + i]);
    }
    rows.extend([12, 80, 13]);
    let role = [3, 2, 3, 13, 1, 1, 0, 1, 81];
    let file = framed(100, [&rows, &[&role[..], &[0, 0]].concat(), &[0, 0, 0, 0, 0, 0], &[0, 1]]);
    for listing in Listing::BOTH {
        let begin = std::time::Instant::now();
        assert_eq!(agrees(listing, &with_budget(&file, u32::MAX), 128), "HELD 1");
        assert!(begin.elapsed().as_millis() < 1000, "{:?}", begin.elapsed());
    }
}

/// Reads of several variables of which each part alone can be derivable, but not all with the same values.
#[test]
fn contradictory_parts_are_not_tried() {
    let mut files = vec![reads::four_in_three_parts()];
    files.extend([2, 7, 20, 60].map(reads::contradictory));
    files.extend([5, 20, 50].map(reads::unknown_value));
    files.extend([(0, 30), (5, 10), (5, 30)].map(|(several, constants)| reads::built_or_known(several, constants)));
    files.extend([(5, 3), (3, 5), (1, 7)].map(|(free, length)| reads::cycle(free, length, 3)));
    for (file, listing) in files.iter().flat_map(|file| Listing::BOTH.map(|listing| (file, listing))) {
        let begin = std::time::Instant::now();
        assert_eq!(answered(listing, file, 128), "HELD 1", "{}", reference::hexadecimal(file));
        assert!(begin.elapsed().as_millis() < 1000, "{:?}: {}", begin.elapsed(), reference::hexadecimal(file));
    }
}

/// All of the values that are allowed are tried, in their order.
#[test]
fn reads_of_several_variables_answer_as_the_reference() {
    let mut random = Random::new(12);
    let mut lengths = BTreeMap::new();
    for _ in 0..3_000 {
        let file = with_budget(&reads::random(&mut random), random.pick(&[20, 300, 3000]));
        *lengths.entry(agrees(Full, &file, 128)).or_insert(0) += 1;
    }
    assert!(lengths.len() > 10, "{lengths:?}");
    assert!(lengths["HELD 1"] > 100 && lengths["HELD 1"] < 2_900, "{lengths:?}");
}

/// The stack that the header states is enough, for the deepest walks and for tests of choices at their end.
#[test]
fn a_call_needs_no_more_stack_than_stated() {
    let header = include_str!("../../../include/tejorva.h");
    let stated = header.split("#define TEJORVA_SEARCH_STACK ").nth(1).unwrap().split_whitespace().next().unwrap();
    for (readers, listing) in (0..=4).flat_map(|readers| Listing::BOTH.map(|listing| (readers, listing))) {
        let call = move || answered(listing, &with_budget(&reads::deepest(readers), 3000), 128);
        let thread = std::thread::Builder::new().stack_size(stated.parse().unwrap()).spawn(call).unwrap();
        assert_eq!(thread.join().unwrap(), "STOPPED 3000");
    }
}

/// More states than the memory has slots, and lists that only a memory counts.
#[test]
fn long_lists_answer_as_the_reference() {
    let mut verdicts = vec![];
    for file in [reads::values(4, 3, 5), reads::values(2, 5, 4), reads::claims(8, 2), reads::claims(4, 4), reads::claims(8, 4)] {
        let whole = agrees(Full, &with_budget(&file, u32::MAX), 128);
        for budget in [1, 1000, 100_000, number(&whole) - 1, number(&whole)] {
            agrees(Full, &with_budget(&file, budget), 128);
        }
        verdicts.push(whole);
    }
    assert_eq!(verdicts[4], format!("STOPPED {}", u32::MAX));
    assert!(verdicts[..4].iter().all(|verdict| verdict.starts_with("HELD ")), "{verdicts:?}");
    assert!(number(&verdicts[3]) > 100_000_000, "{verdicts:?}");
}
