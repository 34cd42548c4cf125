//! Derive of the proved library against the cases and against the reference program.
use library::answer::derived;
use library::random::{damage, list, table, Random};

const CASES: &str = include_str!("../../cases/base.txt");

/// The reference's answer in the words of the cases.
fn expected(table: &[u8], list: &[u8], target: u8) -> String {
    let request = format!(
        "0 derive {} {} {:02x}",
        reference::hexadecimal(table),
        reference::hexadecimal(list),
        target
    );
    reference::answer(&request)
}

#[test]
fn every_case_has_its_answer() {
    let mut count = 0;
    for line in CASES.lines().filter(|l| l.starts_with("0 derive ")) {
        let (request, answer) = line.split_once(" -> ").unwrap();
        let fields: Vec<&str> = request.split(' ').collect();
        let bytes = |i: usize| reference::bytes(fields[i]).unwrap();
        let given = library::derive(&bytes(2), &bytes(3), u64::from(bytes(4)[0]));
        assert_eq!(derived(given), answer, "{request}");
        count += 1;
    }
    assert!(count >= 100, "only {count} cases");
}

#[test]
fn random_tables_answer_as_the_reference() {
    let mut random = Random::new(3);
    let mut words = std::collections::BTreeMap::new();
    for round in 0..30_000 {
        let most = random.pick(&[4, 12, 30, 60, 96]);
        let mut rows = table(&mut random, most);
        if random.chance(3) {
            damage(&mut random, &mut rows);
        }
        if rows.len() >= 3 && random.chance(20) {
            let at = 3 * random.below(rows.len() / 3);
            rows.extend_from_within(at..at + 3);
        }
        let count = rows.len() / 3;
        let mut listed = list(&mut random, 16, count);
        if random.chance(20) {
            damage(&mut random, &mut listed);
        }
        let target = if random.chance(10) {
            random.below(256)
        } else {
            random.below(count.max(1))
        } as u8;
        let given = derived(library::derive(&rows, &listed, u64::from(target)));
        assert_eq!(given, expected(&rows, &listed, target), "round {round}: {rows:?} {listed:?} {target}");
        let key: String = given.split(' ').take(2).collect::<Vec<_>>().join(" ");
        *words.entry(key).or_insert(0) += 1;
    }
    println!("{words:?}");
    for word in ["YES", "NO", "REFUSED 4", "REFUSED 5", "REFUSED 11"] {
        assert!(words.get(word).is_some_and(|&n| n >= 100), "too few {word}: {words:?}");
    }
}

#[test]
fn a_target_above_every_byte_is_absent() {
    for target in [1, 96, 255, 256, 1 << 32, u64::MAX] {
        assert_eq!(derived(library::derive(&[3, 0, 0], &[0, 0], target)), "REFUSED 11 2");
    }
}

#[test]
fn ninety_six_rows_and_ninety_seven() {
    let rows: Vec<u8> = (0..97u8).flat_map(|n| [3, n, 0]).collect();
    assert_eq!(derived(library::derive(&rows[..288], &[95], 95)), "YES");
    assert_eq!(derived(library::derive(&rows, &[95], 95)), "REFUSED 4 288");
    assert_eq!(derived(library::derive(&rows[..289], &[95], 95)), "REFUSED 4 288");
}

/// Row k = {row k-1}row k-1, ninety rows deep: shared rows are looked at once.
#[test]
fn shared_rows_are_quick() {
    let mut rows = vec![3, 0, 0, 3, 1, 0];
    for k in 2..92u8 {
        rows.extend([12, k - 1, k - 1]);
    }
    let begin = std::time::Instant::now();
    assert_eq!(derived(library::derive(&rows, &[91], 0)), "NO");
    assert_eq!(derived(library::derive(&rows, &[91], 1)), "NO");
    assert_eq!(derived(library::derive(&rows, &[1], 91)), "YES");
    assert_eq!(derived(library::derive(&rows, &[0], 91)), "NO");
    assert!(begin.elapsed().as_millis() < 200, "{:?}", begin.elapsed());
}
