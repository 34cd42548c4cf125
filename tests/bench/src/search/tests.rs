//! Both walks answer random files as the library does, by either list and with the same trace; lists are counted; the exchanges are as they are meant.
use super::exchanges;
use super::files::Parts;
use super::timing::SIDES;
use super::walk::{counted, search, Listing};
use crate::open;
use library::answer::{number, word, HELD};
use library::random::Random;
use library::reads;
use library::scenarios::{near, scenario, with_budget};

const LISTINGS: [Listing; 2] = [Listing::Full, Listing::Short];

/// A random file of one of three sorts, with a random budget.
fn random_file(random: &mut Random, round: usize) -> Vec<u8> {
    let file = match round % 3 {
        0 => scenario(random),
        1 => {
            let file = scenario(random);
            near(random, &file)
        }
        _ => reads::random(random),
    };
    with_budget(&file, random.pick(&[20, 300, 3_000, 50_000]))
}

#[test]
fn both_walks_answer_as_the_library() {
    let mut random = Random::new(12);
    for round in 0..6_000 {
        let file = random_file(&mut random, round);
        for listing in LISTINGS {
            let answers = SIDES.map(|side| {
                let mut buffer = [0; 128];
                (side(listing, &file, &mut buffer), buffer)
            });
            assert_eq!(answers[0], answers[1], "{listing:?}, with memory, round {round}");
            assert_eq!(answers[0], answers[2], "{listing:?}, without memory, round {round}");
        }
    }
}

#[test]
fn a_list_that_holds_is_counted() {
    let mut random = Random::new(13);
    let mut count = 0;
    for round in 0..1_000 {
        let file = random_file(&mut random, round);
        for listing in LISTINGS {
            let answer = search(listing, &file, &mut [0; 128]);
            if word(answer) == HELD {
                assert_eq!(counted(listing, &file, u128::MAX).0, number(answer).into(), "{listing:?}, round {round}");
                count += 1;
            }
        }
    }
    assert!(count > 500, "only {count} lists");
}

#[test]
fn exchanges_have_four_runs_and_six_to_eight_events_in_each_role() {
    for (name, file) in exchanges::all() {
        assert_eq!(open::open(&file), open::ACCEPTED, "{name}");
        let parts = Parts::of(&file);
        assert_eq!(parts.runs.len(), 4, "{name}");
        assert!(parts.roles.iter().all(|role| (6..=8).contains(&role.events.len())), "{name}");
        assert_eq!(word(search(Listing::Short, &file, &mut [0; 128])), HELD, "{name}");
    }
}
