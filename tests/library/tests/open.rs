//! Open of the proved library against the cases and against the reference program.
use library::answer::opened;
use library::random::{damage, table, Random};
use library::scenarios::{framed, near, scenario};
use library::slow;

const CASES: &str = include_str!("../../cases/base.txt");

/// P1: one role that sends its nonce in the clear and claims it secret.
const P1: &str = "0100000064000f010000010100050000050100070000000f03020304020001010402020004000000030000010000";

fn expected(file: &[u8]) -> String {
    match reference::open(file) {
        Ok(_) => "OK".to_string(),
        Err(refusal) => format!("REFUSED {} {}", refusal.number, refusal.place),
    }
}

fn agrees(file: &[u8]) -> String {
    let given = opened(library::open(file));
    assert_eq!(given, expected(file), "{}", reference::hexadecimal(file));
    given
}

/// The scenario files of all cases, each once.
fn files() -> Vec<Vec<u8>> {
    let mut files: Vec<Vec<u8>> = CASES
        .lines()
        .filter(|l| !l.starts_with("0 derive "))
        .filter_map(|l| reference::bytes(l.split(' ').nth(2)?))
        .collect();
    files.sort();
    files.dedup();
    files
}

/// Accepted files of the cases with the most roles and runs, longest first.
fn rich_files() -> Vec<Vec<u8>> {
    let mut rich: Vec<Vec<u8>> = files()
        .into_iter()
        .filter(|f| reference::open(f).is_ok_and(|s| s.roles.len() >= 2 && s.runs.len() >= 2))
        .collect();
    rich.sort_by_key(|f| std::cmp::Reverse(f.len()));
    rich
}

#[test]
fn every_case_has_its_answer() {
    let mut count = 0;
    for line in CASES.lines().filter(|l| l.starts_with("0 open ")) {
        let (request, answer) = line.split_once(" -> ").unwrap();
        let file = reference::bytes(request.split(' ').nth(2).unwrap()).unwrap();
        assert_eq!(opened(library::open(&file)), answer, "{request}");
        count += 1;
    }
    assert!(count >= 200, "only {count} cases");
}

#[test]
fn every_cut_and_every_byte_of_three_files() {
    let rich = rich_files();
    for mut file in [reference::bytes(P1).unwrap(), rich[0].clone(), rich[1].clone()] {
        assert_eq!(agrees(&file), "OK");
        for end in 0..file.len() {
            assert_ne!(agrees(&file[..end]), "OK", "cut at {end}");
        }
        for at in 0..file.len() {
            let byte = file[at];
            for value in 0..=255 {
                file[at] = value;
                agrees(&file);
            }
            file[at] = byte;
        }
    }
}

#[test]
fn damaged_files_answer_as_the_reference() {
    let files = files();
    let mut random = Random::new(4);
    let mut words = std::collections::BTreeMap::new();
    for _ in 0..60_000 {
        let mut file = files[random.below(files.len())].clone();
        for _ in 0..1 + random.below(3) {
            if random.chance(3) {
                damage(&mut random, &mut file);
            } else if !file.is_empty() {
                // a small byte is often a kind or a row, so that the later conditions are reached as well
                let at = random.below(file.len());
                file[at] = random.below(24) as u8;
            }
        }
        let given = agrees(&file);
        let key: String = given.split(' ').take(2).collect::<Vec<_>>().join(" ");
        *words.entry(key).or_insert(0) += 1;
    }
    println!("{words:?}");
    for word in ["OK", "REFUSED 1", "REFUSED 3", "REFUSED 4", "REFUSED 5", "REFUSED 6", "REFUSED 7", "REFUSED 8", "REFUSED 9"] {
        assert!(words.get(word).is_some_and(|&n| n >= 100), "too few {word}: {words:?}");
    }
}

#[test]
fn random_scenarios_are_accepted_and_damaged_ones_answer_as_the_reference() {
    let rich = rich_files();
    let mut random = Random::new(8);
    for round in 0..6_000 {
        let mut file = if round % 3 == 0 { near(&mut random, &rich[round % rich.len()]) } else { scenario(&mut random) };
        assert_eq!(agrees(&file), "OK");
        damage(&mut random, &mut file);
        agrees(&file);
    }
}

#[test]
fn random_tables_in_a_file_without_roles() {
    let mut random = Random::new(5);
    for _ in 0..3_000 {
        let mut rows = table(&mut random, 40);
        if random.chance(2) {
            damage(&mut random, &mut rows);
        }
        let known: Vec<u8> = (0..rows.len() as u8 / 3).filter(|_| random.chance(3)).collect();
        agrees(&framed(9, [&rows, &[], &[], &known]));
    }
}

#[test]
fn ninety_six_rows_and_ninety_seven() {
    let rows: Vec<u8> = (0..97u8).flat_map(|n| [3, n, 0]).collect();
    assert_eq!(agrees(&framed(9, [&rows[..288], &[], &[], &[95]])), "OK");
    assert_eq!(agrees(&framed(9, [&rows, &[], &[], &[95]])), "REFUSED 4 295");
}

#[test]
fn four_thousand_and_ninety_six_bytes_and_one_more() {
    for length in [4095, 4096, 4097, 5000] {
        let mut file = reference::bytes(P1).unwrap();
        file.resize(length, 0);
        let answer = agrees(&file);
        assert_eq!(answer == "REFUSED 2 4096", length > 4096, "{length}: {answer}");
    }
    let rest = vec![0; 4096 - 5 - 8];
    for (block, number) in [(0, 4), (1, 6), (2, 8), (3, 9)] {
        let mut blocks: [&[u8]; 4] = [&[]; 4];
        blocks[block] = &rest;
        let file = framed(9, blocks);
        assert_eq!(file.len(), 4096);
        assert!(agrees(&file).starts_with(&format!("REFUSED {number} ")));
    }
}

/// Four roles of eight reads each, of patterns nested ninety deep over shared rows.
#[test]
fn deep_patterns_are_quick() {
    let mut rows = vec![5, 0, 0, 5, 1, 0, 5, 2, 0, 5, 3, 0, 3, 0, 0, 6, 0, 1];
    for k in 6..96u8 {
        rows.extend(if k % 2 == 0 { [12, k - 1, 4] } else { [11, k - 1, k - 1] });
    }
    let mut role = vec![5, 0, 1, 2, 3, 4, 8];
    for i in 0..8 {
        role.extend([1, 0, 0, 95 - i]);
    }
    let roles = role.repeat(4);
    let file = framed(9, [&rows, &roles, &[], &[]]);
    assert_eq!(opened(library::open(&file)), "OK");
    let begin = std::time::Instant::now();
    for _ in 0..10 {
        std::hint::black_box(library::open(&file));
    }
    assert!(begin.elapsed().as_millis() < 100, "ten opens took {:?}", begin.elapsed());
}

/// Reads with two ways down at each level, on all, some or none of which the constant beneath is known.
#[test]
fn levelled_patterns_answer_as_the_reference() {
    let mut random = Random::new(6);
    let mut accepted = 0;
    for _ in 0..400 {
        let levels = 3 + random.below(5);
        let choice = |random: &mut Random| (random.below(levels), random.below(2));
        let mut lists = match random.below(3) {
            0 => slow::all_choices(&[random.below(levels), random.below(levels)], false),
            1 => slow::chained(&slow::crossed(levels)),
            _ => vec![],
        };
        for _ in 0..random.below(4) {
            lists.push((0..random.below(4)).map(|_| choice(&mut random)).collect());
        }
        if !lists.is_empty() && random.chance(3) {
            lists.remove(random.below(lists.len()));
        }
        let answer = agrees(&slow::levelled(levels, &lists, 1 + random.below(4) as u8));
        accepted += usize::from(answer == "OK");
    }
    assert!((100..=300).contains(&accepted), "{accepted} of 400 accepted");
    agrees(&slow::found());
}

/// Patterns made to be slow: each takes milliseconds in one role, where reading every way would take up to seconds.
#[test]
fn slow_patterns_are_quick() {
    let two = |left_out| slow::levelled(16, &slow::all_choices(&[15, 0], left_out), 1);
    let files = [slow::doubling(18), two(false), two(true), slow::levelled(12, &slow::chained(&slow::crossed(12)), 1), slow::found()];
    for file in files {
        let begin = std::time::Instant::now();
        for _ in 0..10 {
            std::hint::black_box(library::open(&file));
        }
        assert!(begin.elapsed().as_millis() < 2000, "ten opens took {:?}", begin.elapsed());
    }
}
