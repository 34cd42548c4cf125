//! Both searches of the proved library, called with bytes that no call may touch and compared with the reference program.
use crate::answer::{replayed, searched, trace_length, word, BROKEN};
use crate::random::{damage, Random};
use crate::scenarios::with_budget;
use reference::Listing;
use std::collections::BTreeMap;
use std::path::Path;

/// Bytes behind the buffer, which no call may touch.
const BEHIND: usize = 64;

/// The search by a list.
fn search(listing: Listing) -> fn(&[u8], &mut [u8]) -> u64 {
    match listing {
        Listing::Full => crate::search,
        Listing::Short => crate::search_short,
    }
}

/// What a request for that search begins with in the cases.
fn operation(listing: Listing) -> &'static str {
    match listing {
        Listing::Full => "0 search ",
        Listing::Short => "3 short ",
    }
}

/// The cases of a search: file, length of the buffer, answer.
pub fn cases(listing: Listing) -> Vec<(Vec<u8>, usize, &'static str)> {
    let text = match listing {
        Listing::Full => include_str!("../../cases/base.txt"),
        Listing::Short => include_str!("../../cases/short.txt"),
    };
    let case = |line: &'static str| {
        let (request, answer) = line.split_once(" -> ").unwrap();
        let (file, length) = request.strip_prefix(operation(listing))?.split_once(' ').unwrap();
        Some((reference::bytes(file).unwrap(), length.parse().unwrap(), answer))
    };
    text.lines().filter_map(case).collect()
}

/// The examples: name, file and stated verdict.
pub fn examples() -> Vec<(String, Vec<u8>, String)> {
    let folder = Path::new(env!("CARGO_MANIFEST_DIR")).join("../../examples");
    let mut paths: Vec<_> = std::fs::read_dir(folder).unwrap().map(|entry| entry.unwrap().path()).collect();
    paths.retain(|path| path.extension().is_some_and(|end| end == "hex"));
    paths.sort();
    assert!(paths.len() >= 16);
    let example = |path: std::path::PathBuf| {
        let text = std::fs::read_to_string(&path).unwrap();
        let verdict = reference::stated_verdict(&text).unwrap().to_string();
        (path.file_name().unwrap().to_str().unwrap().to_string(), reference::uncommented(&text).unwrap(), verdict)
    };
    paths.into_iter().map(example).collect()
}

/// A search's answer with a buffer of that length, in the words of the cases. A broken claim's trace is all that was written, and no byte of the file.
pub fn answered(listing: Listing, file: &[u8], length: usize) -> String {
    let lent = file.to_vec();
    let before: Vec<u8> = (0..length + BEHIND).map(|i| (i * 89 + 170) as u8).collect();
    let mut after = before.clone();
    let answer = search(listing)(&lent, &mut after[..length]);
    let written = if word(answer) == BROKEN { trace_length(answer) } else { 0 };
    assert!(written <= length, "{written} of {length} bytes");
    assert_eq!(after[written..], before[written..], "bytes that were to be kept: {}", reference::hexadecimal(file));
    assert_eq!(lent, file);
    searched(answer, &after[..length])
}

/// The answer, which is the reference program's too.
pub fn agrees(listing: Listing, file: &[u8], length: usize) -> String {
    let given = answered(listing, file, length);
    let request = format!("{}{} {length}", operation(listing), reference::hexadecimal(file));
    assert_eq!(given, reference::answer(&request), "{request}");
    given
}

/// The number of a verdict: list place, list length or budget.
pub fn number(verdict: &str) -> u32 {
    verdict.split(' ').nth(1).unwrap().parse().unwrap()
}

/// An answer's word, with the number if it is a refusal.
pub fn kind(answer: &str) -> String {
    let words = if answer.starts_with("REFUSED") { 2 } else { 1 };
    answer.split(' ').take(words).collect::<Vec<_>>().join(" ")
}

/// A broken claim's trace replays to that claim, and all of it is needed: without its last steps it breaks none.
pub fn replays(file: &[u8], verdict: &str) {
    if let ["BROKEN", _, "RUN", run, "EVENT", event, "TRACE", trace] = verdict.split(' ').collect::<Vec<_>>()[..] {
        let trace = reference::bytes(trace).unwrap();
        let claim = format!("CLAIM RUN {run} EVENT {event}");
        assert_eq!(replayed(crate::replay(file, &trace)), claim, "{}: {verdict}", reference::hexadecimal(file));
        let mut end = 0;
        while end < trace.len() {
            assert_eq!(replayed(crate::replay(file, &trace[..end])), "NONE", "{}: {verdict}", reference::hexadecimal(file));
            end += 2 + 2 * usize::from(trace[end + 1]);
        }
        assert_eq!(end, trace.len());
    }
}

/// Compares the answers of a file with a budget, with none, with budgets at and around the number of the verdict, and with a buffer that is too short.
pub fn agrees_around(listing: Listing, random: &mut Random, file: &[u8], budget: u32) -> String {
    let verdict = agrees(listing, &with_budget(file, budget), 128);
    replays(file, &verdict);
    let number = number(&verdict);
    for budget in [0, number.saturating_sub(1), number, number + 1] {
        agrees(listing, &with_budget(file, budget), random.pick(&[128, 129, 200, 1000]));
    }
    assert_eq!(agrees(listing, file, 127), "REFUSED 10 127");
    kind(&verdict)
}

/// The answer of a file damaged behind its budget, mostly in one byte that stays in its place.
pub fn agrees_damaged(listing: Listing, random: &mut Random, file: &[u8], budget: u32) -> String {
    let mut rest = file[5..].to_vec();
    if random.chance(4) {
        damage(random, &mut rest);
    } else {
        let at = random.below(rest.len());
        rest[at] = random.below(20) as u8;
    }
    let damaged = with_budget(&[&file[..5], &rest].concat(), budget);
    kind(&agrees(listing, &damaged, random.pick(&[0, 127, 128, 300])))
}

/// Each of these words came often.
pub fn assert_many(words: &BTreeMap<String, usize>, expected: &[&str]) {
    println!("{words:?}");
    for &word in expected {
        assert!(words.get(word).is_some_and(|&n| n >= 50), "too few {word}: {words:?}");
    }
}
