//! What is said of two object files: that they are one object, or why they aren't.

use crate::page::page_shows;
use crate::program::{drive, drive_among, Ran};
use reference::canonical_cases::ring;
use reference::refusal::Refusal;
use reference::table::Table;
use reference::table_file::TableFile;
use reference::trace_event::refused;

fn same_files(one: &[u8], other: &[u8]) -> Ran {
    drive_among(
        &[("a.bin", one), ("b.bin", other)],
        &["same", "a.bin", "b.bin"],
        b"",
    )
}

fn same(one: &TableFile, other: &TableFile) -> Ran {
    same_files(&one.to_bytes(), &other.to_bytes())
}

/// Both files are one object, whichever is named first, and each with itself.
fn are_one(one: &TableFile, other: &TableFile, shape: &str) {
    let said = format!("same: a.bin and b.bin are one object, with {shape}\n");
    for (ours, theirs) in [(one, other), (other, one), (one, one), (other, other)] {
        assert_eq!(same(ours, theirs).text(), said);
    }
}

/// They aren't, for this reason, which calls the first one A and the other B; and so if the other is named first.
fn are_two(one: &TableFile, other: &TableFile, reason: &str, reason_other_first: &str) {
    let line = |reason: &str| {
        format!("different: {reason}\n")
            .replace('A', "a.bin")
            .replace('B', "b.bin")
    };
    assert_eq!(same(one, other).no(), line(reason));
    assert_eq!(same(other, one).no(), line(reason_other_first));
}

fn flag_from(start: u16) -> TableFile {
    TableFile {
        start,
        ..TableFile::flag()
    }
}

/// The flag with up as state 0, down as state 2, and between them a state that no other leads to.
fn redrawn_flag() -> TableFile {
    let (up, spare, down) = (0, 1, 2);
    let entries = [
        [(up, 1), (up, 1), (down, 1)],
        [(up, 7), (spare, 7), (down, 7)],
        [(down, 0), (up, 0), (down, 0)],
    ];
    TableFile::plain(3, 3, u16::from(down), &entries.concat())
}

fn named(table: TableFile, operations: &str) -> TableFile {
    table.with_text(format!("Some text.\noperations: {operations}\n").into_bytes())
}

/// Tables of one operation, each state leading to the one that is given with its response.
fn line_of(entries: &[(u8, u8)]) -> TableFile {
    TableFile::plain(entries.len() as u16, 1, 0, entries)
}

#[test]
fn renumbered_states_spare_states_and_text_make_no_other_object() {
    let shape = "2 states that can be reached and 3 operations";
    are_one(&TableFile::flag(), &redrawn_flag(), shape);
    are_one(
        &flag_from(1),
        &TableFile {
            start: 0,
            ..redrawn_flag()
        },
        shape,
    );
    for text in [
        vec![0],
        vec![b'1'; 4_096],
        b"operations: a b c\nstates: x y z\n".to_vec(),
    ] {
        are_one(&TableFile::flag(), &redrawn_flag().with_text(text), shape);
    }
}

#[test]
fn one_is_counted_as_one_and_256_as_256() {
    let smallest = line_of(&[(0, 7)]);
    let shape = "1 state that can be reached and 1 operation";
    are_one(&smallest, &line_of(&[(0, 7), (1, 8)]), shape);
    let shape = "256 states that can be reached and 32 operations";
    are_one(&ring(32, 7, 1), &ring(32, 7, 1), shape);
}

#[test]
fn the_same_file_twice_is_one_object() {
    let flag = TableFile::flag().to_bytes();
    let said = drive_among(&[("flag.bin", &flag)], &["same", "flag.bin", "flag.bin"], b"").text();
    assert_eq!(
        said,
        "same: flag.bin and flag.bin are one object, with 2 states that can be reached and 3 operations\n"
    );
}

#[test]
fn other_numbers_of_operations_are_named() {
    let one = TableFile::plain(1, 1, 0, &[(0, 0)]);
    let two = TableFile::plain(1, 2, 0, &[(0, 0); 2]);
    are_two(
        &one,
        &two,
        "A has 1 operation and B has 2",
        "A has 2 operations and B has 1",
    );
    are_two(
        &named(TableFile::flag(), "read set clear"),
        &two,
        "A has 3 operations and B has 2",
        "A has 2 operations and B has 3",
    );
}

#[test]
fn responses_that_differ_at_the_start_are_named() {
    are_two(
        &flag_from(0),
        &flag_from(1),
        "at the start, operation 0 responds 0 in A and 1 in B",
        "at the start, operation 0 responds 1 in A and 0 in B",
    );
    let mut other = TableFile::flag();
    other.entries[5] = 255;
    are_two(
        &TableFile::flag(),
        &other,
        "at the start, operation 2 responds 0 in A and 255 in B",
        "at the start, operation 2 responds 255 in A and 0 in B",
    );
}

#[test]
fn responses_that_differ_after_a_list_are_named_with_it() {
    let mut other = TableFile::flag();
    other.entries[11] = 5;
    are_two(
        &redrawn_flag(),
        &other,
        "after operation 1, operation 2 responds 1 in A and 5 in B",
        "after operation 1, operation 2 responds 5 in A and 1 in B",
    );
    are_two(
        &line_of(&[(1, 0), (2, 0), (0, 3)]),
        &line_of(&[(1, 0), (2, 0), (0, 4)]),
        "after operations 0 0, operation 0 responds 3 in A and 4 in B",
        "after operations 0 0, operation 0 responds 4 in A and 3 in B",
    );
}

/// One state that leads to itself, against two and three that answer alike.
#[test]
fn a_state_that_is_split_in_the_other_file_is_named_by_two_lists() {
    for split in [
        line_of(&[(1, 0), (1, 0)]),
        line_of(&[(1, 0), (0, 0)]),
        line_of(&[(2, 0), (1, 0), (1, 0)]),
    ] {
        are_two(
            &line_of(&[(0, 0)]),
            &split,
            "after operation 0, A is in the same state as at the start, and B is not; their responses never differ",
            "after operation 0, B is in the same state as at the start, and A is not; their responses never differ",
        );
    }
}

/// Operations 0 and 1 lead from the start to one state, or to two.
#[test]
fn both_lists_can_have_operations() {
    let merged = TableFile::plain(2, 2, 0, &[(1, 0), (1, 0), (1, 3), (1, 3)]);
    let split = TableFile::plain(3, 2, 0, &[(1, 0), (2, 0), (1, 3), (1, 3), (2, 3), (2, 3)]);
    are_two(
        &merged,
        &split,
        "after operation 1, A is in the same state as after operation 0, and B is not; their responses never differ",
        "after operation 1, B is in the same state as after operation 0, and A is not; their responses never differ",
    );
    let merged = line_of(&[(1, 0), (2, 1), (2, 2)]);
    let split = line_of(&[(1, 0), (2, 1), (3, 2), (3, 2)]);
    are_two(
        &merged,
        &split,
        "after operations 0 0 0, A is in the same state as after operations 0 0, and B is not; their responses never differ",
        "after operations 0 0 0, B is in the same state as after operations 0 0, and A is not; their responses never differ",
    );
}

/// Responses differ only after two operations, a state is split after one: then it isn't said that they never differ. The
/// responses that differ after two are named if the two lists that meet have as many operations, three.
#[test]
fn the_reason_with_the_fewest_operations_is_named() {
    let far = line_of(&[(1, 0), (2, 0), (2, 1)]);
    are_two(
        &line_of(&[(0, 0)]),
        &far,
        "after operation 0, A is in the same state as at the start, and B is not",
        "after operation 0, B is in the same state as at the start, and A is not",
    );
    are_two(
        &line_of(&[(1, 0), (1, 0)]),
        &far,
        "after operations 0 0, operation 0 responds 0 in A and 1 in B",
        "after operations 0 0, operation 0 responds 1 in A and 0 in B",
    );
}

/// In the first pair of tables, lists of two and three operations meet in one, and in the other none and four, which are
/// fewer. In the second pair both have five, and the list of four is shorter than that of five.
#[test]
fn the_two_lists_with_the_fewest_operations_are_named() {
    let round = |states: u8| {
        line_of(
            &(0..states)
                .map(|state| ((state + 1) % states, 0))
                .collect::<Vec<_>>(),
        )
    };
    are_two(
        &line_of(&[(1, 0), (2, 0), (2, 0)]),
        &round(4),
        "after operation 0 (4 times), B is in the same state as at the start, and A is not; their responses never differ",
        "after operation 0 (4 times), A is in the same state as at the start, and B is not; their responses never differ",
    );
    are_two(
        &line_of(&[(1, 0), (2, 0), (3, 0), (1, 0)]),
        &round(5),
        "after operation 0 (4 times), A is in the same state as after operation 0, and B is not; their responses never differ",
        "after operation 0 (4 times), B is in the same state as after operation 0, and A is not; their responses never differ",
    );
}

/// States in a row of which operation 0 leads on from the first `zeros`, and operation 1 from the others but the last,
/// where operation 1 responds this.
fn row_of_states(zeros: u8, ones: u8, response: u8) -> TableFile {
    let last = zeros + ones;
    let entries = (0..=last).flat_map(|state| {
        let on = |operation| state < last && (state < zeros) == (operation == 0);
        let next = move |operation| if on(operation) { state + 1 } else { state };
        let at_last = if state == last { response } else { 0 };
        [(next(0), 0), (next(1), at_last)]
    });
    TableFile::plain(u16::from(last) + 1, 2, 0, &entries.collect::<Vec<(u8, u8)>>())
}

#[test]
fn more_than_three_of_an_operation_in_a_row_are_counted() {
    for (zeros, ones, after) in [
        (0, 0, "at the start"),
        (1, 0, "after operation 0"),
        (0, 2, "after operations 1 1"),
        (3, 0, "after operations 0 0 0"),
        (4, 0, "after operation 0 (4 times)"),
        (4, 1, "after operations 0 (4 times) 1"),
        (2, 5, "after operations 0 0 1 (5 times)"),
        (128, 127, "after operations 0 (128 times) 1 (127 times)"),
    ] {
        are_two(
            &row_of_states(zeros, ones, 8),
            &row_of_states(zeros, ones, 9),
            &format!("{after}, operation 1 responds 8 in A and 9 in B"),
            &format!("{after}, operation 1 responds 9 in A and 8 in B"),
        );
    }
}

/// If the texts of both name the operations, and not alike, a name could be taken for another operation.
#[test]
fn operations_go_by_names_where_the_texts_do_not_contradict() {
    let other = |table: TableFile| {
        let mut entries = table.entries.clone();
        entries[11] = 5;
        TableFile { entries, ..table }
    };
    let plain = TableFile::flag;
    let by_names = "after operation set, operation clear responds 1 in a.bin and 5 in b.bin";
    let by_numbers = "after operation 1, operation 2 responds 1 in a.bin and 5 in b.bin";
    let names = || named(plain(), "read set clear");
    for (one, other, reason) in [
        (plain(), other(plain()), by_numbers),
        (names(), other(plain()), by_names),
        (plain(), other(names()), by_names),
        (names(), other(names()), by_names),
        (names(), other(named(plain(), "read clear set")), by_numbers),
        (names(), other(named(plain(), "read set reset")), by_numbers),
        (names(), other(named(plain(), "read set")), by_names),
        (named(plain(), "read set set"), other(plain()), by_numbers),
    ] {
        assert_eq!(same(&one, &other).no(), format!("different: {reason}\n"));
    }
    let split = TableFile::plain(1, 3, 0, &[(0, 0); 3]);
    let merged = TableFile::plain(2, 3, 0, &[(0, 0), (1, 0), (0, 0), (1, 0), (1, 0), (1, 0)]);
    assert_eq!(
        same(&named(split, "read set clear"), &merged).no(),
        "different: after operation set, a.bin is in the same state as at the start, and b.bin is not; \
         their responses never differ\n"
    );
}

/// Files that are refused with 1 to 4.
fn refused_files() -> [(Vec<u8>, Refusal); 4] {
    let flag = TableFile::flag;
    let mut out_of_range = flag();
    out_of_range.entries[10] = 2;
    [
        (Vec::new(), Refusal::File),
        (TableFile { start: 2, ..flag() }.to_bytes(), Refusal::Dimensions),
        (TableFile { offset: 1, ..flag() }.to_bytes(), Refusal::Length),
        (out_of_range.to_bytes(), Refusal::NextState),
    ]
}

#[test]
fn a_file_that_is_refused_is_named() {
    let flag = TableFile::flag().to_bytes();
    for (file, refusal) in refused_files() {
        assert_eq!(Table::check(&file), Err(refusal));
        let reason = refused(refusal);
        let said = |name: &str| format!("drive: {name} is {reason}\n");
        assert_eq!(same_files(&file, &flag).failure(), said("a.bin"));
        assert_eq!(same_files(&flag, &file).failure(), said("b.bin"));
        assert_eq!(same_files(&file, b"").failure(), said("a.bin"));
        let input = drive_among(&[("flag.bin", &flag)], &["same", "flag.bin", "-"], &file);
        assert_eq!(input.failure(), said("the standard input"));
    }
}

#[test]
fn a_file_that_is_too_long_is_named() {
    let flag = TableFile::flag().to_bytes();
    let long = [vec![0; 20_497 - flag.len()], flag.clone()].concat();
    let reason = refused(Refusal::File);
    assert_eq!(
        same_files(&flag, &long).failure(),
        format!("drive: b.bin is {reason}\n")
    );
    let endless = drive(&["same", "/dev/zero", "-"], &flag).failure();
    assert_eq!(endless, format!("drive: /dev/zero is {reason}\n"));
}

#[test]
fn one_of_the_files_can_be_the_standard_input() {
    let [flag, from_1] = [flag_from(0), flag_from(1)].map(|table| table.to_bytes());
    let among = |words: &[&str], input: &[u8]| drive_among(&[("flag.bin", &flag)], words, input);
    let redrawn = redrawn_flag().to_bytes();
    assert_eq!(
        among(&["same", "-", "flag.bin"], &redrawn).text(),
        "same: the standard input and flag.bin are one object, with 2 states that can be reached and 3 operations\n"
    );
    assert_eq!(
        among(&["same", "flag.bin", "-"], &from_1).no(),
        "different: at the start, operation 0 responds 0 in flag.bin and 1 in the standard input\n"
    );
}

/// The object file of an example.
fn example(name: &str) -> Vec<u8> {
    drive(&["table", &format!("examples/{name}.txt")], b"").out
}

#[test]
fn the_page_has_what_is_said_of_the_examples() {
    let (flag, redrawn, split) = (example("flag"), example("flag-redrawn"), example("flag-split"));
    let files: [(&str, &[u8]); 3] = [
        ("flag.bin", &flag),
        ("redrawn.bin", &redrawn),
        ("split.bin", &split),
    ];
    let among = |words: &[&str], input: &[u8]| drive_among(&files, words, input);
    page_shows(
        "same flag.bin redrawn.bin",
        &among(&["same", "flag.bin", "redrawn.bin"], b"").text(),
    );
    page_shows(
        "same flag.bin split.bin",
        &among(&["same", "flag.bin", "split.bin"], b"").no(),
    );
    let rings = drive(&["ring-table", "examples/rings.txt"], b"").out;
    page_shows(
        "ring-table examples/rings.txt | drive same flag.bin -",
        &among(&["same", "flag.bin", "-"], &rings).no(),
    );
}
