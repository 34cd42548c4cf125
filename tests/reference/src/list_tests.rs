//! Both lists of traces against lists made by trying every choice of values, and against each other,
//! on all cases at hand.

use crate::scenario::{open, Action, Scenario};
use crate::search::{search, traces, Verdict};
use crate::system::{Claim, Move, Situation, System, Value};
use crate::walk::{walk, Listing, Visitor};
use crate::{answer, bytes, hexadecimal, replay};
use std::ops::ControlFlow;

const CASES: [&str; 2] = [
    include_str!("../../cases/base.txt"),
    include_str!("../../cases/short.txt"),
];
const BOUND: usize = 300;

fn cases() -> impl Iterator<Item = &'static str> {
    CASES.iter().flat_map(|cases| cases.lines())
}

/// The files of the cases that Open accepts.
fn accepted_files() -> Vec<Vec<u8>> {
    let file = |line: &str| bytes(line.split(' ').nth(2)?);
    cases()
        .filter_map(file)
        .filter(|file| open(file).is_ok())
        .collect()
}

/// Every choice of values for the variables, in order, allowed or not.
fn choices(system: &System, variables: &[usize]) -> Vec<Vec<Value>> {
    variables.iter().fold(vec![vec![]], |choices, &variable| {
        let longer = |choice: &Vec<Value>, value| choice.iter().copied().chain([value]).collect();
        let extended = |choice: &Vec<Value>| -> Vec<Vec<Value>> {
            system
                .candidates(variable)
                .into_iter()
                .map(|value| longer(choice, value))
                .collect()
        };
        choices.iter().flat_map(extended).collect()
    })
}

/// Every allowed move of a situation, in order, with where it leads.
fn moves_by_trying(system: &mut System, here: &Situation) -> Vec<(Move, Situation)> {
    let mut moves = Vec::new();
    for run in system.scenario.run_numbers() {
        let Some(event) = system.next_event(&here.state, run) else {
            continue;
        };
        let variables = system.new_variables(&here.state, run, event);
        for values in choices(system, &variables) {
            let step = Move { run, values };
            if let Some(there) = system.after(here, &step) {
                moves.push((step, there));
            }
        }
    }
    moves
}

/// The moves that the list goes on with. Sends and claims are always allowed, so the short list
/// keeps the first of them alone if there are any.
fn listed_moves(listing: Listing, system: &mut System, here: &Situation) -> Vec<(Move, Situation)> {
    let mut moves = moves_by_trying(system, here);
    let no_read = |(step, _): &(Move, Situation)| {
        let event = system.next_event(&here.state, step.run);
        event.is_some_and(|event| matches!(event.action, Action::Send | Action::Claim))
    };
    match (listing, moves.iter().position(no_read)) {
        (Listing::Short, Some(first)) => vec![moves.remove(first)],
        _ => moves,
    }
}

/// Adds the trace that leads here and its extensions to the list, until the list is full.
fn list_by_trying(
    listing: Listing,
    system: &mut System,
    here: &Situation,
    trace: &[u8],
    list: &mut Vec<Vec<u8>>,
) {
    if list.len() == BOUND {
        return;
    }
    list.push(trace.to_vec());
    for (step, there) in listed_moves(listing, system, here) {
        let longer = [trace, &step.bytes()].concat();
        list_by_trying(listing, system, &there, &longer, list);
    }
}

/// Whether the choices for one read are few enough to try them all.
fn is_small(system: &System) -> bool {
    let table = &system.scenario.table;
    let mut events = system.scenario.roles.iter().flat_map(|role| &role.events);
    events.all(|event| {
        let variables = table.variables_beneath(event.row);
        event.action != Action::Read
            || variables
                .iter()
                .map(|&row| system.candidates(row).len())
                .product::<usize>()
                < 3000
    })
}

#[test]
fn all_cases_have_their_answers() {
    for line in cases() {
        let (request, expected) = line.split_once(" -> ").unwrap();
        assert_eq!(answer(request), expected, "{request}");
    }
}

#[test]
fn each_list_is_the_one_found_by_trying() {
    let mut compared = 0;
    for file in accepted_files() {
        let mut system = System::new(open(&file).unwrap());
        if is_small(&system) {
            for listing in Listing::BOTH {
                let mut list = Vec::new();
                let start = system.start();
                list_by_trying(listing, &mut system, &start, &[], &mut list);
                assert_eq!(traces(listing, &file, BOUND).unwrap(), list);
            }
            compared += 1;
        }
    }
    assert!(compared > 500, "{compared} files");
}

/// Run, count and values stand in a step in the order in which moves are compared, so a list rises
/// as byte strings do.
#[test]
fn each_list_rises_and_each_trace_of_it_replays() {
    for file in accepted_files() {
        for listing in Listing::BOTH {
            let list = traces(listing, &file, BOUND).unwrap();
            assert!(list.windows(2).all(|pair| pair[0] < pair[1]));
            for trace in list {
                assert!(trace.len() <= 128);
                assert!(replay(&file, &trace).is_ok());
            }
        }
    }
}

/// Whether every event of every run is a read.
fn only_reads(scenario: &Scenario) -> bool {
    let mut events = scenario.runs.iter().flat_map(|run| scenario.events(run));
    events.all(|event| event.action == Action::Read)
}

/// "For a scenario of reads only, both lists are equal."
#[test]
fn both_lists_of_reads_only_are_equal() {
    let mut equal = 0;
    for file in accepted_files() {
        if only_reads(&open(&file).unwrap()) {
            let [full, short] = Listing::BOTH.map(|listing| traces(listing, &file, BOUND).unwrap());
            assert_eq!(short, full);
            equal += usize::from(full.len() > 1);
        }
    }
    assert!(equal > 20, "{equal} files");
}

/// "With a budget reaching the end of both lists, the two searches give the same word." The short
/// list is never longer.
#[test]
fn both_lists_give_the_same_word() {
    let (mut held, mut broken, mut shorter) = (0, 0, 0);
    for mut file in accepted_files() {
        file[1..5].copy_from_slice(&100_000_u32.to_be_bytes());
        match Listing::BOTH.map(|listing| search(listing, &file, 128).unwrap()) {
            [Verdict::Held(full), Verdict::Held(short)] => {
                assert!(short <= full);
                held += 1;
                shorter += usize::from(short < full);
            }
            [Verdict::Broken { .. }, Verdict::Broken { .. }] => broken += 1,
            // This budget does not reach the end of the full list.
            [Verdict::Stopped(_), _] | [Verdict::Broken { .. }, Verdict::Stopped(_)] => (),
            verdicts => panic!("{verdicts:?}: {}", hexadecimal(&file)),
        }
    }
    println!("{held} held, {shorter} of them by a shorter list, {broken} broken");
    assert!(held > 200 && shorter > 50 && broken > 200);
}

/// Judges each trace and passes none.
struct PlainJudge {
    left: u32,
    judged: u64,
    verdict: Option<Verdict>,
}

impl Visitor for PlainJudge {
    fn visit(&mut self, trace: &[u8], broken: Option<Claim>) -> ControlFlow<()> {
        if self.left == 0 {
            self.verdict = Some(Verdict::Stopped(self.judged as u32));
            return ControlFlow::Break(());
        }
        self.left -= 1;
        self.judged += 1;
        match broken {
            Some(claim) => {
                self.verdict = Some(Verdict::Broken {
                    place: self.judged,
                    claim,
                    trace: trace.to_vec(),
                });
                ControlFlow::Break(())
            }
            None => ControlFlow::Continue(()),
        }
    }
}

#[test]
fn passing_known_states_gives_the_verdict_of_the_plain_walk() {
    for file in accepted_files() {
        let scenario = open(&file).unwrap();
        for listing in Listing::BOTH {
            let mut judge = PlainJudge {
                left: scenario.budget,
                judged: 0,
                verdict: None,
            };
            walk(listing, scenario.clone(), &mut judge);
            let verdict = judge.verdict.unwrap_or(Verdict::Held(judge.judged));
            assert_eq!(search(listing, &file, 128), Ok(verdict));
        }
    }
}
