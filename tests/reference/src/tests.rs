//! Worked cases P1 to P12, cuts, limits and single rules, each with its answer.

use crate::{answer, bytes, hexadecimal, open, traces, Listing, Refusal, MALFORMED};

/// The four blocks of a file in hexadecimal, blanks between the items.
type Blocks<'a> = [&'a str; 4];

const P1_ROWS: &str = "010000 010100 050000 050100 070000";
const P1_ROLES: &str = "03020304 02 00010104 02020004 00 00";
const P1: Blocks = [P1_ROWS, P1_ROLES, "000001", ""];
const P1_FILE: &str = "01 00000064 000F 010000 010100 050000 050100 070000 \
    000F 03020304 02 00010104 02020004 00 00 0003 000001 0000";

/// P1 that sends {n} under the public key of role 1 instead.
const P2_ROWS: &str = "010000 010100 050000 050100 070000 080300 0c0405";
const P2_ROLES: &str = "0402030405 02 00010106 02020004 00 00";
const P2: Blocks = [P2_ROWS, P2_ROLES, "000001", ""];

/// One run whose only event reads a fresh variable; one intruder constant.
const P12_ROWS: &str = "010000 010100 050000 050100 040000 060001";
const P12_ROLES: &str = "020203 01 01000105 00 00";

fn without_blanks(text: &str) -> String {
    text.split(' ').collect()
}

fn bytes_of(text: &str) -> Vec<u8> {
    let digits = without_blanks(text);
    bytes(if digits.is_empty() { "-" } else { &digits }).expect("hexadecimal digits")
}

/// The file with that budget and these blocks, each with its length.
fn file(budget: u32, blocks: Blocks) -> Vec<u8> {
    let mut file = vec![1];
    file.extend(budget.to_be_bytes());
    for block in blocks.map(bytes_of) {
        file.extend((block.len() as u16).to_be_bytes());
        file.extend(block);
    }
    file
}

fn opened(blocks: Blocks) -> String {
    answer(&format!("0 open {}", hexadecimal(&file(100, blocks))))
}

fn searched(budget: u32, blocks: Blocks) -> String {
    searched_by("0 search", budget, blocks)
}

/// The verdict by the short list.
fn searched_short(budget: u32, blocks: Blocks) -> String {
    searched_by("3 short", budget, blocks)
}

fn searched_by(operation: &str, budget: u32, blocks: Blocks) -> String {
    let file = hexadecimal(&file(budget, blocks));
    answer(&format!("{operation} {file} 128"))
}

fn replayed(blocks: Blocks, trace: &str) -> String {
    let trace = hexadecimal(&bytes_of(trace));
    answer(&format!(
        "0 replay {} {trace}",
        hexadecimal(&file(100, blocks))
    ))
}

fn derived(table: &str, list: &str, target: &str) -> String {
    let [table, list] = [table, list].map(|text| hexadecimal(&bytes_of(text)));
    answer(&format!("0 derive {table} {list} {target}"))
}

fn refusal(number: u8, place: usize) -> Option<Refusal> {
    Some(Refusal { number, place })
}

#[test]
fn p1_breaks_at_the_third_trace() {
    assert_eq!(file(100, P1), bytes_of(P1_FILE));
    assert_eq!(searched(100, P1), "BROKEN 3 RUN 1 EVENT 1 TRACE 01000100");
    assert_eq!(replayed(P1, "0100 0100"), "CLAIM RUN 1 EVENT 1");
    assert_eq!(replayed(P1, "0100"), "NONE");
}

#[test]
fn p2_to_p6_have_their_verdicts() {
    assert_eq!(searched(100, P2), "HELD 3");
    assert_eq!(searched(2, P2), "STOPPED 2");
    assert_eq!(
        searched(100, [P2_ROWS, P2_ROLES, "000001 000001", ""]),
        "HELD 19"
    );
    assert_eq!(searched(100, [P1_ROWS, P1_ROLES, "", ""]), "HELD 1");
    let untrusted = "010000 020100 050000 050100 070000";
    assert_eq!(searched(100, [untrusted, P1_ROLES, "000001", ""]), "HELD 3");
}

#[test]
fn p7_to_p11_have_their_answers() {
    // c, d, a, pk(a), sk(a), {c}pk(a), {c}sk(a), {d}d, {c}{d}d
    let table = "030000 030100 010000 080200 090200 0c0003 0c0004 0c0101 0c0007";
    assert_eq!(derived(table, "05 04", "00"), "YES");
    assert_eq!(derived(table, "05 03", "00"), "NO");
    assert_eq!(derived(table, "06 03", "00"), "YES");
    assert_eq!(derived(table, "08 01", "00"), "YES");
    assert_eq!(derived(table, "02", "03"), "NO");
}

#[test]
fn p12_reads_only_between_known_names() {
    let verdict = |knowledge| searched(100, [P12_ROWS, P12_ROLES, "000001", knowledge]);
    assert_eq!(verdict("00 01"), "HELD 2");
    assert_eq!(verdict("00"), "HELD 1");
    assert_eq!(verdict("01"), "HELD 1");
}

#[test]
fn the_short_list_has_one_order_of_sends_and_claims() {
    let broken = "BROKEN 3 RUN 1 EVENT 1 TRACE 01000100";
    assert_eq!(searched_short(100, P1), broken);
    assert_eq!(searched_short(2, P1), "STOPPED 2");
    assert_eq!(searched_short(100, P2), "HELD 3");
    // P4: of two runs of P2 the first moves to its end, then the second.
    let p4 = [P2_ROWS, P2_ROLES, "000001 000001", ""];
    let listed = traces(Listing::Short, &file(100, p4), 100).unwrap();
    assert_eq!(listed.last(), Some(&bytes_of("0100 0100 0200 0200")));
    assert_eq!(searched_short(100, p4), "HELD 5");
    assert_eq!(searched_short(5, p4), "HELD 5");
    assert_eq!(searched_short(4, p4), "STOPPED 4");
    assert_eq!(searched_short(0, p4), "STOPPED 0");
    let p12 = [P12_ROWS, P12_ROLES, "000001", "00 01"];
    assert_eq!(searched_short(100, p12), "HELD 2");
}

#[test]
fn the_short_list_reads_where_no_run_sends_or_claims() {
    // Role 0 reads the variable of P12 and sends it on; role 1 claims a local constant.
    let rows = format!("{P12_ROWS} 070000");
    let roles = "020203 02 01000105 00000105 03020306 01 02000006";
    for (runs, list) in [
        (
            "000001 010001",
            ["", "0200", "0200 01010400", "0200 01010400 0100"],
        ),
        (
            "010001 000001",
            ["", "0100", "0100 02010400", "0100 02010400 0200"],
        ),
    ] {
        let blocks = [&rows, roles, runs, "00 01"];
        let listed = traces(Listing::Short, &file(100, blocks), 100).unwrap();
        assert_eq!(listed, list.map(bytes_of), "{runs}");
        assert_eq!(searched(100, blocks), "HELD 9");
        assert_eq!(searched_short(100, blocks), "HELD 4");
    }
}

#[test]
fn a_cut_in_every_byte_of_p1_is_refused() {
    let file = file(100, P1);
    assert_eq!(open(&file[..0]).err(), refusal(1, 0));
    for length in 1..file.len() {
        assert_eq!(open(&file[..length]).err(), refusal(3, length));
    }
    let longer = [&file[..], &[0]].concat();
    assert_eq!(open(&longer).err(), refusal(3, longer.len()));
}

#[test]
fn settled_readings_have_their_answers() {
    for case in [
        "0 derive 010000010000000000 - 00 -> REFUSED 5 3",
        "0 derive 0100000300000800000900000c01020c0403 05 01 -> NO",
        "0 derive 0600000300000800000c0102090000 0304 01 -> YES",
        "0 open 010000006400090300000700000c000100000000000102 -> REFUSED 9 22",
        "0 open 010000006400030500000008010001000101000500000000 -> REFUSED 6 19",
        "0 open 010000006400030501000002000000000000 -> REFUSED 6 7",
        "0 open 0100000064000303000000070100010200000000000000 -> REFUSED 7 15",
        "0 open 010000006400090500000700000b010100070100010100000200000000 -> OK",
        "0 open 010000006400090500000600010c000100070100010100000200000000 -> REFUSED 7 21",
        "0 open 0100000064000000000001000000 -> REFUSED 8 11",
        "0 derive 030000 05 05 -> REFUSED 11 0",
    ] {
        let (request, expected) = case.split_once(" -> ").expect("a case");
        assert_eq!(answer(request), expected, "{request}");
    }
    // A run's agents count also for roles that its events never name.
    let rows = "010000 020000 050000 050100 070000";
    let roles = "020204 02 00000004 02000004 00 00";
    assert_eq!(searched(100, [rows, roles, "000001", ""]), "HELD 3");
}

#[test]
fn requests_out_of_form_are_malformed() {
    let open = [
        "",
        "0",
        "0 open",
        "0 open ",
        "0  open -",
        "0 open - ",
        "1 open -",
        "0 open -\r",
    ];
    let digits = [
        "0 open 0",
        "0 open 0g",
        "0 open é",
        "0 derive - - -",
        "0 derive - - 0000",
    ];
    let others = [
        "0 close -",
        "0 search -",
        "0 search - ",
        "0 search - x",
        "0 search - +5",
        "0 replay -",
        "3 short -",
        "3 short - x",
        "0 short - 128",
        "3 search - 128",
    ];
    for request in open.iter().chain(&digits).chain(&others) {
        assert_eq!(answer(request), MALFORMED, "{request:?}");
    }
    assert_eq!(answer("0 open -"), "REFUSED 1 0");
    assert_eq!(answer("0 derive - - 00"), "REFUSED 11 0");
}

#[test]
fn version_and_length_come_first() {
    let mut long = vec![1; 4097];
    assert_eq!(open(&long).err(), refusal(2, 4096));
    assert_eq!(open(&long[..4096]).err(), refusal(3, 4096));
    long[0] = 2;
    assert_eq!(open(&long).err(), refusal(1, 0));
}

#[test]
fn rows_are_limited_to_96() {
    let rows: String = (0..96).map(|number| format!("03{number:02x}00")).collect();
    assert_eq!(derived(&rows, "5f", "5f"), "YES");
    for rest in ["03", "0360", "036000", "030000", "ff0000"] {
        assert_eq!(derived(&format!("{rows}{rest}"), "", "00"), "REFUSED 4 288");
    }
    assert_eq!(derived(&rows[..rows.len() - 2], "", "00"), "REFUSED 4 285");
    let blocks = [&rows, "", "", ""];
    assert_eq!(opened(blocks), "OK");
    assert_eq!(
        opened([&format!("{rows}036000"), "ff", "ff", "ff"]),
        "REFUSED 4 295"
    );
}

#[test]
fn variables_are_limited_to_8() {
    let eight = "060000 060001 060100 060101 060200 060201 060300 060301";
    assert_eq!(derived(eight, "", "07"), "NO");
    // A ninth that repeats an earlier row is refused as a ninth.
    assert_eq!(
        derived(&format!("{eight} 030000 060000"), "", "00"),
        "REFUSED 4 27"
    );
    assert_eq!(
        derived(&format!("{eight} 030000 030000"), "", "00"),
        "REFUSED 5 27"
    );
}

#[test]
fn rows_follow_the_table_of_kinds() {
    // Agent, role name, agent variable, fresh variable, constant, pair; then the row in question.
    let answer = |row: &str| {
        derived(
            &format!("010000 050000 060000 060001 030000 0b0404 {row}"),
            "",
            "00",
        )
    };
    let accepted =
        "01ff00 020000 030900 040000 050300 06ff01 070000 080000 080100 090200 0a0001 0a0202 \
        0b0405 0b0000 0c0505 0c0003";
    for row in accepted.split(' ') {
        assert_eq!(answer(row), "NO", "{row}");
    }
    let refused = "000000 010101 020001 030901 040001 050400 050301 060102 070001 080300 080400 \
        080600 080001 090500 0a0003 0a0400 0a0006 0b0504 0b0406 0b0604 0c0600 0c0006 0d0000 ff0000";
    for row in refused.split(' ') {
        assert_eq!(answer(row), "REFUSED 4 18", "{row}");
    }
}

#[test]
fn a_role_record_follows_its_rules() {
    let sends = |count: usize| format!("03020304 {count:02x} {}", "00000104".repeat(count));
    for (record, expected) in [
        (sends(8).as_str(), "OK"),
        (sends(9).as_str(), "REFUSED 6 24"),
        ("03030204 00", "REFUSED 6 24"),
        ("0402020304 00", "REFUSED 6 24"),
        ("0402030405 00", "REFUSED 6 24"),
        ("03020304 01 03000104", "REFUSED 6 24"),
        ("03020304 01 00000204", "REFUSED 6 24"),
        ("03020304 01 00000105", "REFUSED 6 24"),
        ("03020304 01 02000104", "REFUSED 6 24"),
        ("03020304 01 02ff0004", "OK"),
    ] {
        let roles = format!("{record} 00 00");
        assert_eq!(
            opened([P1_ROWS, &roles, "000001", ""]),
            expected,
            "{record}"
        );
    }
    // A variable beneath the knowledge, here as a key.
    let rows = format!("{P1_ROWS} 060001 0c0405");
    assert_eq!(opened([&rows, "03020306 00 00 00", "", ""]), "REFUSED 6 30");
}

#[test]
fn a_role_is_present_if_its_record_begins() {
    let answer = |roles: &str| opened([P1_ROWS, roles, "ff", "ff"]);
    // The second record is against the rules, but role 1 is present.
    assert_eq!(answer("03020304 01 00000104 0109 00"), "REFUSED 6 33");
    // Nine events end where the count says: the first record is refused for them, or the second.
    let nine = "00000104".repeat(9);
    assert_eq!(answer(&format!("03020304 09 {nine} ff")), "REFUSED 6 24");
    assert_eq!(
        answer(&format!("020203 00 03020304 09 {nine} ff")),
        "REFUSED 6 28"
    );
    // Role 1 has no record: an event that names it is refused before the row that does.
    assert_eq!(answer("03020304 01 00000104"), "REFUSED 6 24");
    assert_eq!(answer("03020304 01 00000004"), "REFUSED 6 16");
    // A fifth record is refused at its own first byte, and role 4 is not present.
    assert_eq!(answer("0000 0000 0000 0000 0000"), "REFUSED 6 32");
    assert_eq!(answer("0000 0000 0000 0000 ff"), "REFUSED 6 32");
    assert_eq!(
        answer("03020304 01 00000404 0000 0000 0000 0000"),
        "REFUSED 6 24"
    );
}

#[test]
fn an_incomplete_role_record_takes_all_that_is_left() {
    let roles = without_blanks(P1_ROLES);
    for length in 1..15 {
        // The first record has 13 bytes; it names role 1, which is absent until the second begins.
        let expected = if length < 14 {
            "REFUSED 6 24"
        } else {
            "REFUSED 6 37"
        };
        assert_eq!(
            opened([P1_ROWS, &roles[..2 * length], "", ""]),
            expected,
            "{length}"
        );
    }
    assert_eq!(opened([P1_ROWS, "", "", ""]), "REFUSED 6 13");
}

#[test]
fn the_first_event_that_is_not_well_formed_is_refused() {
    let answer = |roles| {
        opened([
            &format!("{P1_ROWS} 090200 060001 0c0604"),
            roles,
            "ff",
            "ff",
        ])
    };
    // The claim of an unknown key, after a good send.
    assert_eq!(
        answer("03020304 02 00000104 02000005 00 00"),
        "REFUSED 7 42"
    );
    // The peer's name or the own name is unknown.
    assert_eq!(answer("020204 01 00000104 00 00"), "REFUSED 7 37");
    assert_eq!(answer("020304 01 02000004 00 00"), "REFUSED 7 37");
    // A variable is sent before it is read, and in the second role too.
    assert_eq!(
        answer("03020304 01 00000106 03020304 01 00000106"),
        "REFUSED 7 38"
    );
    assert_eq!(
        answer("03020304 02 01000107 00000106 03020304 01 00000106"),
        "REFUSED 7 51"
    );
}

#[test]
fn a_run_record_follows_its_rules() {
    for (runs, expected) in [
        ("000001 000001 000001 000001", "OK"),
        ("000001 000001 000001 000001 000001", "REFUSED 8 53"),
        ("000001 000001 000001 000001 00", "REFUSED 8 53"),
        ("0000", "REFUSED 8 41"),
        ("000001 00", "REFUSED 8 44"),
        ("020001", "REFUSED 8 41"),
        ("000002", "REFUSED 8 41"),
        ("000005", "REFUSED 8 41"),
        ("010000 000400", "REFUSED 8 44"),
    ] {
        assert_eq!(opened([P1_ROWS, P1_ROLES, runs, ""]), expected, "{runs}");
    }
}

#[test]
fn a_known_row_follows_its_rules() {
    for (knowledge, expected) in [
        ("00 01", "OK"),
        ("00 00", "REFUSED 9 47"),
        ("01 00", "REFUSED 9 47"),
        ("00 02", "REFUSED 9 47"),
        ("04", "REFUSED 9 46"),
        ("00 01 05", "REFUSED 9 48"),
    ] {
        assert_eq!(
            opened([P1_ROWS, P1_ROLES, "000001", knowledge]),
            expected,
            "{knowledge}"
        );
    }
}

#[test]
fn the_buffer_has_128_bytes_at_least() {
    let file = hexadecimal(&file(100, P2));
    for search in ["0 search", "3 short"] {
        for (length, expected) in [
            (0, "REFUSED 10 0"),
            (127, "REFUSED 10 127"),
            (128, "HELD 3"),
            (300, "HELD 3"),
        ] {
            assert_eq!(answer(&format!("{search} {file} {length}")), expected);
        }
        assert_eq!(answer(&format!("{search} - 0")), "REFUSED 1 0");
    }
}

#[test]
fn the_budget_bounds_what_is_judged() {
    assert_eq!(searched(0, P2), "STOPPED 0");
    assert_eq!(searched(3, P2), "HELD 3");
    assert_eq!(searched(2, P1), "STOPPED 2");
    assert_eq!(searched(3, P1), "BROKEN 3 RUN 1 EVENT 1 TRACE 01000100");
}

#[test]
fn replay_refuses_steps_that_are_not_allowed() {
    // P12 with local constant 6 and global constant 7; it sends 6, reads variable 5 and claims it.
    let rows = format!("{P12_ROWS} 070000 030000");
    let roles = "03020306 03 00000106 01000105 02000005 00 00";
    let answer = |trace: &str| replayed([&rows, roles, "000001", "00 01"], trace);
    assert_eq!(answer(""), "NONE");
    assert_eq!(answer("0100 01010400"), "NONE");
    assert_eq!(answer("0100 01010400 0100"), "CLAIM RUN 1 EVENT 2");
    assert_eq!(answer("0100 01010601 0100"), "CLAIM RUN 1 EVENT 2");
    for first in ["01", "0000", "0200", "ff00", "01010400"] {
        assert_eq!(answer(first), "REFUSED 12 0", "{first}");
    }
    let second = "01 0100 010104 01010401 01010600 01010602 01010700 01010000 01010501 01010800 \
        010204000400";
    for second in second.split(' ') {
        assert_eq!(
            answer(&format!("0100 {second}")),
            "REFUSED 12 2",
            "{second}"
        );
    }
    assert_eq!(answer("0100 01010400 01010400"), "REFUSED 12 6");
    assert_eq!(answer("0100 01010400 0100 0100"), "REFUSED 12 8");
}

#[test]
fn a_claim_is_judged_at_the_end_of_the_trace() {
    // Role 0 claims n, sends {n}k, then k.
    let rows = format!("{P1_ROWS} 070100 0c0405");
    let roles = "0402030405 03 02000004 00000106 00000105 00 00";
    let verdict = searched(100, [&rows, roles, "000001", ""]);
    assert_eq!(verdict, "BROKEN 4 RUN 1 EVENT 0 TRACE 010001000100");
}

#[test]
fn rows_that_double_in_size_stay_small() {
    let rows: String = (0..95).map(|row| format!("0c{row:02x}{row:02x}")).collect();
    let table = format!("030000{rows}");
    assert_eq!(derived(&table, "00", "5f"), "YES");
    assert_eq!(derived(&table, "5f 5d", "5e"), "YES");
    assert_eq!(derived(&table, "5f 5e", "5d"), "NO");
}

#[test]
fn hopeless_choices_for_eight_variables_are_not_tried() {
    // Rows 4 to 11 are fresh variables, 12 an intruder constant, 13 a key that stays unknown, 14 to
    // 73 local constants, 74 to 80 the tuple of the variables, 81 the tuple under the key.
    let mut rows = without_blanks("010000 010100 050000 050100");
    rows.extend((0..8).map(|number| format!("06{number:02x}01")));
    rows.push_str("040000 030000");
    rows.extend((0..60).map(|number| format!("07{number:02x}00")));
    rows.push_str("0b0a0b");
    rows.extend((0..6).map(|number| format!("0b{:02x}{:02x}", 9 - number, 74 + number)));
    rows.push_str("0c500d");
    let blocks = [
        &rows,
        "0302030d 01 01000151 00 00",
        "000001 000001",
        "00 01",
    ];
    assert_eq!(searched(u32::MAX, blocks), "HELD 1");
}
