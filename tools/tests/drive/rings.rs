//! Owners and tables of rings, compared with the second program.

use crate::page::page_shows;
use crate::program::drive;
use crate::tables::{reads_back, report};
use reference::desk::{owner, ring_table, RING_WORDS};
use reference::desk_cases::{fixed_cases, random_case};
use reference::refusal::Refusal;
use reference::table::Table;
use reference::trace_event::refused;

const RANDOM_CASES: u64 = 150;
/// Of a list's chainages and of the fixed lists, one in so many is asked for.
const CHAINAGES_APART: usize = 7;
const LISTS_APART: usize = 11;

const EXAMPLE: &str = "examples/rings.txt";
const KINDS: [&str; 2] = ["ordinary", "key"];

/// The text of a list, if it can be written: every ring is whole and of a kind that has a name.
fn text_of(rings: &[u32]) -> Option<String> {
    let line = |ring: &[u32]| match *ring {
        [length, kind] => Some(format!("{length} {}\n", KINDS.get(kind as usize)?)),
        _ => None,
    };
    rings.chunks(RING_WORDS).map(line).collect()
}

/// A number as drive shows it.
fn shown(number: u64) -> String {
    let digits = number.to_string();
    let (first, rest) = digits.split_at((digits.len() - 1) % 3 + 1);
    let groups = rest.as_bytes().chunks(3).map(String::from_utf8_lossy);
    [first.to_string()]
        .into_iter()
        .chain(groups.map(|group| format!(",{group}")))
        .collect()
}

/// What is said of a list that is refused with 14: the line of the first ring that is refused in a list of its own, or else
/// the number of rings.
fn of_refused_list(rings: &[u32]) -> String {
    let mut alone = (1..).zip(rings.chunks(RING_WORDS));
    let reason = refused(Refusal::Rings);
    match alone.find(|(_, ring)| owner(ring, 0) == Err(Refusal::Rings)) {
        Some((line, ring)) => {
            let length = shown(u64::from(ring[0]));
            format!("drive: line {line}: the ring of {length} millimetres is {reason}\n")
        }
        None => format!(
            "drive: the list of {} rings is {reason}\n",
            rings.len() / RING_WORDS
        ),
    }
}

/// Where the first rings end.
fn end_of(rings: &[u32], count: usize) -> u64 {
    let first = rings.chunks(RING_WORDS).take(count);
    first.map(|ring| u64::from(ring[0])).sum()
}

fn kind_of(rings: &[u32], number: usize) -> &'static str {
    KINDS[rings[RING_WORDS * number - 1] as usize]
}

/// The number of the answer, 0 if there is an owner.
fn compare_owner(rings: &[u32], text: &str, chainage: u64) -> u8 {
    let ran = drive(&["owner", "-", &chainage.to_string()], text.as_bytes());
    match owner(rings, chainage) {
        Ok(number) => {
            let ring = usize::from(number);
            let [chainage, start, end] = [chainage, end_of(rings, ring - 1), end_of(rings, ring)].map(shown);
            let kind = kind_of(rings, ring);
            let expected = format!(
                "ring {number} owns chainage {chainage}: {kind}, from {start} to {end} millimetres\n"
            );
            assert_eq!(ran.text(), expected);
            0
        }
        Err(Refusal::Chainage) => {
            let count = rings.len() / RING_WORDS;
            let [chainage, end] = [chainage, end_of(rings, count)].map(shown);
            let (reason, kind) = (refused(Refusal::Chainage), kind_of(rings, count));
            let expected =
                format!("chainage {chainage} is {reason}; the last ring, {kind}, ends at {end} millimetres");
            assert_eq!(ran.failure(), format!("drive: {expected}\n"));
            15
        }
        Err(refusal) => {
            assert_eq!(ran.failure(), of_refused_list(rings));
            refusal.number()
        }
    }
}

/// The number of the answer, 0 if a table is written.
fn compare_table(rings: &[u32], text: &str) -> u8 {
    let ran = drive(&["ring-table", "-"], text.as_bytes());
    match ring_table(rings) {
        Ok(file) => {
            assert_eq!((ran.status, ran.out, ran.err.as_str()), (0, file, ""));
            0
        }
        Err(refusal) => {
            assert_eq!(ran.failure(), of_refused_list(rings));
            refusal.number()
        }
    }
}

#[test]
fn owners_and_tables_are_those_of_the_second_program() {
    let (mut by_owner, mut by_table) = ([0; 17], [0; 17]);
    let fixed = fixed_cases().into_iter().step_by(LISTS_APART);
    for case in fixed.chain((0..RANDOM_CASES).map(random_case)) {
        let Some(text) = text_of(&case.rings) else {
            continue;
        };
        for chainage in case.chainages.iter().step_by(CHAINAGES_APART) {
            by_owner[usize::from(compare_owner(&case.rings, &text, *chainage))] += 1;
        }
        by_table[usize::from(compare_table(&case.rings, &text))] += 1;
    }
    assert!(
        [0, 14, 15].iter().all(|number| by_owner[*number] > 20),
        "{by_owner:?}"
    );
    assert!(
        [0, 14].iter().all(|number| by_table[*number] > 20),
        "{by_table:?}"
    );
}

/// Rings of length 1.
fn list_of(count: usize) -> (Vec<u32>, String) {
    ([1, 0].repeat(count), "1 ordinary\n".repeat(count))
}

#[test]
fn tables_of_rings_are_checked_and_shown_as_any_other() {
    for count in [1, 2, 3, 254, 255] {
        let (rings, text) = list_of(count);
        assert_eq!(compare_table(&rings, &text), 0);
        let file = drive(&["ring-table", "-"], text.as_bytes()).out;
        let table = Table::check(&file).expect("a table");
        assert_eq!(drive(&["check", "-"], &file).text(), report(&table, 0));
        reads_back(&file);
    }
}

#[test]
fn the_number_of_rings_is_named() {
    for (count, number) in [(0, 14), (255, 0), (256, 14), (65_537, 14)] {
        let (rings, text) = list_of(count);
        assert_eq!(compare_owner(&rings, &text, 0), number);
        assert_eq!(compare_table(&rings, &text), number);
    }
}

/// Both commands say the same of a text.
fn refused_with(text: &[u8], reason: &str) {
    for words in [vec!["owner", "-", "0"], vec!["ring-table", "-"]] {
        assert_eq!(drive(&words, text).failure(), format!("drive: {reason}\n"));
    }
}

#[test]
fn a_wrong_line_is_named_by_its_number() {
    let form = "a line is 'LENGTH ordinary', 'LENGTH key', or '# comment'";
    let no_length = "is no length: lengths are whole millimetres in digits alone, and fit in 32 bits";
    for (line, reason) in [
        ("1500", form),
        ("1500 key 1", form),
        ("key", form),
        ("12.5 key", &format!("12.5 {no_length}")),
        ("+1500 key", &format!("+1500 {no_length}")),
        ("-1 key", &format!("-1 {no_length}")),
        ("1,500 key", &format!("1,500 {no_length}")),
        ("key 1500", &format!("key {no_length}")),
        ("4294967296 key", &format!("4294967296 {no_length}")),
        ("1500 Key", "Key is no kind: a ring is ordinary or key"),
        ("1500 1", "1 is no kind: a ring is ordinary or key"),
    ] {
        let text = format!("# comment\n1500 ordinary\n\n{line}\n0 key\n");
        refused_with(text.as_bytes(), &format!("line 4: {reason}"));
    }
    refused_with(b"1500 key \xff\n", "the text is not UTF-8");
}

/// Comments and empty lines are lines too, and no rings.
#[test]
fn a_ring_that_is_refused_is_named_by_its_line() {
    for (length, named) in [("0", "0"), ("20001", "20,001"), ("4294967295", "4,294,967,295")] {
        let text = format!("# comment\n\n1500 ordinary\n{length} key\n0 key\n");
        let reason = refused(Refusal::Rings);
        refused_with(
            text.as_bytes(),
            &format!("line 4: the ring of {named} millimetres is {reason}"),
        );
    }
}

#[test]
fn other_line_ends_comments_and_spaces_give_the_same_list() {
    let text = "1500 ordinary\n1200 key\n900 ordinary\n";
    let file = drive(&["ring-table", "-"], text.as_bytes()).out;
    let said = drive(&["owner", "-", "2700"], text.as_bytes()).text();
    assert_eq!(
        said,
        "ring 2 owns chainage 2,700: key, from 1,500 to 2,700 millimetres\n"
    );
    for other in [
        text.replace('\n', "\r\n"),
        text.trim_end().to_string(),
        text.replace(' ', "\t  "),
        text.replace("12", "  0012"),
        format!("#comment\n  # comment\n\n{text}"),
    ] {
        assert_eq!(drive(&["ring-table", "-"], other.as_bytes()).out, file, "{other}");
        assert_eq!(
            drive(&["owner", "-", "2700"], other.as_bytes()).text(),
            said,
            "{other}"
        );
    }
}

/// The text isn't looked at before the chainage.
#[test]
fn a_chainage_is_a_whole_number_of_64_bits() {
    for word in [
        "",
        "-",
        "-1",
        "+1",
        "1.5",
        "1,500",
        "1500mm",
        "0x10",
        "18446744073709551616",
    ] {
        for file in [EXAMPLE, "-", "no/file"] {
            let said = drive(&["owner", file, word], b"").failure();
            let range = "chainages are whole millimetres in digits alone, from 0 to 18446744073709551615";
            assert_eq!(said, format!("drive: '{word}' is no chainage: {range}\n"));
        }
    }
    let far = drive(&["owner", EXAMPLE, "18446744073709551615"], b"").failure();
    assert!(
        far.starts_with("drive: chainage 18,446,744,073,709,551,615 is refused with 15: "),
        "{far}"
    );
}

#[test]
fn the_list_can_be_the_standard_input() {
    let text = std::fs::read(EXAMPLE).expect("the example");
    let said = "ring 3 owns chainage 4,200: key, from 3,000 to 4,200 millimetres\n";
    assert_eq!(drive(&["owner", "-", "4200"], &text).text(), said);
}

#[test]
fn the_page_has_what_the_commands_print() {
    let file = drive(&["ring-table", EXAMPLE], b"").out;
    let checked = drive(&["check", "-"], &file).text();
    page_shows("ring-table examples/rings.txt | drive check -", &checked);
    page_shows(
        "owner examples/rings.txt 4200",
        &drive(&["owner", EXAMPLE, "4200"], b"").text(),
    );
    page_shows(
        "owner examples/rings.txt 5700",
        &drive(&["owner", EXAMPLE, "5700"], b"").failure(),
    );
}
