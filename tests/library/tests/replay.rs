//! Replay of the proved library against the cases and against the reference program.
use library::answer::replayed;
use library::random::{damage, Random};
use reference::Listing;

const CASES: &str = include_str!("../../cases/base.txt");

/// P1: one role that sends its nonce in the clear and claims it secret.
const P1: &str = "0100000064000f010000010100050000050100070000000f03020304020001010402020004000000030000010000";

/// A scenario with at most so many traces is small.
const SMALL: usize = 200;

fn expected(file: &[u8], trace: &[u8]) -> String {
    match reference::replay(file, trace) {
        Ok(Some(claim)) => format!("CLAIM RUN {} EVENT {}", claim.run, claim.event),
        Ok(None) => "NONE".to_string(),
        Err(refusal) => format!("REFUSED {} {}", refusal.number, refusal.place),
    }
}

fn agrees(file: &[u8], trace: &[u8]) -> String {
    let given = replayed(library::replay(file, trace));
    let wanted = expected(file, trace);
    assert_eq!(given, wanted, "{} {}", reference::hexadecimal(file), reference::hexadecimal(trace));
    given
}

/// How often each answer came, without places.
#[derive(Default)]
struct Words(std::collections::BTreeMap<String, usize>);

impl Words {
    fn count(&mut self, answer: &str) {
        let word = answer.split(' ').take(if answer.starts_with('R') { 2 } else { 1 }).collect::<Vec<_>>().join(" ");
        *self.0.entry(word).or_insert(0) += 1;
    }

    fn has(&self, words: &[&str], least: usize) {
        println!("{:?}", self.0);
        for word in words {
            assert!(self.0.get(*word).is_some_and(|&n| n >= least), "too few {word}: {:?}", self.0);
        }
    }
}

/// The accepted files of all cases, each once.
fn files() -> Vec<Vec<u8>> {
    let mut files: Vec<Vec<u8>> = CASES
        .lines()
        .filter(|l| !l.starts_with("0 derive "))
        .filter_map(|l| reference::bytes(l.split(' ').nth(2)?))
        .filter(|f| reference::open(f).is_ok())
        .collect();
    files.sort();
    files.dedup();
    files
}

/// The accepted files with the first traces of their lists, those alone that have more than the empty one.
fn listed(bound: usize) -> Vec<(Vec<u8>, Vec<Vec<u8>>)> {
    files()
        .into_iter()
        .map(|file| {
            let traces = reference::traces(Listing::Full, &file, bound).unwrap();
            (file, traces)
        })
        .filter(|(_, traces)| traces.len() > 1)
        .collect()
}

/// The small scenarios, each with its whole list of traces.
fn small() -> Vec<(Vec<u8>, Vec<Vec<u8>>)> {
    listed(SMALL + 1).into_iter().filter(|(_, traces)| traces.len() <= SMALL).collect()
}

#[test]
fn every_case_has_its_answer() {
    let mut count = 0;
    for line in CASES.lines().filter(|l| l.starts_with("0 replay ")) {
        let (request, answer) = line.split_once(" -> ").unwrap();
        let fields: Vec<&str> = request.split(' ').collect();
        let bytes = |i: usize| reference::bytes(fields[i]).unwrap();
        assert_eq!(replayed(library::replay(&bytes(2), &bytes(3))), answer, "{request}");
        count += 1;
    }
    assert!(count >= 250, "only {count} cases");
}

#[test]
fn every_trace_of_small_scenarios_is_accepted() {
    let (mut scenarios, mut words) = (0, Words::default());
    for (file, traces) in small() {
        scenarios += 1;
        for trace in traces {
            let answer = agrees(&file, &trace);
            assert!(!answer.starts_with("REFUSED"), "{answer}");
            words.count(&answer);
        }
    }
    println!("{scenarios} scenarios");
    assert!(scenarios >= 100, "only {scenarios} scenarios");
    words.has(&["NONE", "CLAIM"], 100);
}

#[test]
fn every_cut_and_every_byte_of_those_traces() {
    let (mut count, mut words) = (0, Words::default());
    for (file, traces) in small() {
        for mut trace in traces {
            for end in 0..trace.len() {
                words.count(&agrees(&file, &trace[..end]));
            }
            for at in 0..trace.len() {
                let byte = trace[at];
                for value in [byte ^ 1, byte.wrapping_add(1), byte.wrapping_add(2), byte.wrapping_sub(1), 0, 255] {
                    trace[at] = value;
                    words.count(&agrees(&file, &trace));
                    count += 1;
                }
                trace[at] = byte;
            }
        }
    }
    println!("{count} damaged traces");
    words.has(&["NONE", "CLAIM", "REFUSED 12"], 1000);
}

#[test]
fn random_traces_answer_as_the_reference() {
    let lists = listed(300);
    let mut random = Random::new(6);
    let mut words = Words::default();
    for _ in 0..40_000 {
        let (file, traces) = &lists[random.below(lists.len())];
        let mut trace = traces[random.below(traces.len())].clone();
        for _ in 0..random.below(4) {
            match random.below(4) {
                0 => damage(&mut random, &mut trace),
                1 => trace.extend_from_slice(&traces[random.below(traces.len())]),
                _ => trace.extend(step(&mut random)),
            }
        }
        words.count(&agrees(file, &trace));
    }
    words.has(&["NONE", "CLAIM", "REFUSED 12"], 2000);
}

/// A step of any run with up to three values, of which most may be taken by some variable.
fn step(random: &mut Random) -> Vec<u8> {
    let count = random.pick(&[0, 0, 0, 1, 1, 2, 3]);
    let mut bytes = vec![1 + random.below(4) as u8, count];
    for _ in 0..count {
        bytes.extend([random.below(16) as u8, random.below(5) as u8]);
    }
    bytes
}

#[test]
fn damaged_files_are_refused_as_by_open() {
    let lists = listed(300);
    let mut random = Random::new(8);
    let mut words = Words::default();
    for _ in 0..40_000 {
        let (file, traces) = &lists[random.below(lists.len())];
        let mut file = file.clone();
        if random.chance(3) {
            damage(&mut random, &mut file);
        } else {
            // past version, budget and first length; a small byte is often a kind or a row
            let at = 7 + random.below(file.len() - 7);
            file[at] = random.below(24) as u8;
        }
        words.count(&agrees(&file, &traces[random.below(traces.len())]));
    }
    words.has(&["NONE", "CLAIM", "REFUSED 3", "REFUSED 4", "REFUSED 6", "REFUSED 7", "REFUSED 8", "REFUSED 9", "REFUSED 12"], 100);
}

/// Four runs of a role with eight events: six sends of an encrypted nonce, its claim, and a send of the key.
fn four_runs() -> Vec<u8> {
    let rows = [1, 0, 0, 5, 0, 0, 7, 0, 0, 7, 1, 0, 12, 2, 3];
    let mut role = vec![3, 1, 2, 3, 8];
    for i in 0..6 {
        role.extend([0, i, 0, 4]);
    }
    role.extend([2, 0, 0, 2, 0, 6, 0, 3]);
    let mut file = vec![1, 0, 0, 0, 9];
    for block in [&rows[..], &role, &[0, 0, 0, 0, 0, 0, 0, 0], &[0]] {
        file.extend((block.len() as u16).to_be_bytes());
        file.extend(block);
    }
    file
}

#[test]
fn thirty_two_steps_and_no_more() {
    let file = four_runs();
    let mut trace = vec![];
    for i in 0..32u8 {
        trace.extend([4 - i % 4, 0]);
        // the last of each run's sends tells its key
        let broken = if i < 28 { "NONE".to_string() } else { format!("CLAIM RUN {} EVENT 6", 32 - i) };
        assert_eq!(agrees(&file, &trace), broken, "step {i}");
    }
    for run in 0..=5 {
        assert_eq!(agrees(&file, &[&trace[..], &[run, 0]].concat()), "REFUSED 12 64");
    }
}

#[test]
fn long_traces_are_refused_at_once() {
    let p1 = reference::bytes(P1).unwrap();
    for (file, place) in [(p1, 4), (four_runs(), 64)] {
        let trace: Vec<u8> = [[1, 0], [2, 0], [3, 0], [4, 0]].concat().repeat(50_000);
        let trace = if place == 4 { [1, 0].repeat(200_000) } else { trace };
        let begin = std::time::Instant::now();
        assert_eq!(replayed(library::replay(&file, &trace)), format!("REFUSED 12 {place}"));
        assert!(begin.elapsed().as_millis() < 20, "{:?}", begin.elapsed());
    }
}
