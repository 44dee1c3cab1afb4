//! The one file of an object, compared with the second program.

use crate::program::drive;
use reference::canonical::canonical;
use reference::canonical_cases::{damaged_table, fixed_tables, random_pair};
use reference::table_cases::{fixed_cases, random_case, Case};
use reference::table_file::TableFile;
use reference::trace_event::refused;
use std::collections::BTreeSet;

const RANDOM_PAIRS: u64 = 150;
const RANDOM_CASES: u64 = 100;
const RANDOM_DAMAGED: u64 = 20;

/// The number of the answer, 0 if a file is written.
fn compare(file: &[u8], name: &str) -> u8 {
    let ran = drive(&["canonical", "-"], file);
    match canonical(file) {
        Ok(written) => {
            assert_eq!((ran.status, ran.err.as_str()), (0, ""), "{name}");
            assert_eq!(ran.out, written, "{name}");
            0
        }
        Err(refusal) => {
            let said = format!("drive: the table is {}\n", refused(refusal));
            assert_eq!(ran.failure(), said, "{name}");
            refusal.number()
        }
    }
}

#[test]
fn files_are_those_of_the_second_program() {
    for Case { name, file } in fixed_tables() {
        assert_eq!(compare(&file, &name), 0);
    }
    for pair in (0..RANDOM_PAIRS).map(random_pair) {
        for file in &pair.files {
            assert_eq!(compare(file, &pair.name), 0);
        }
    }
}

#[test]
fn refusals_are_those_of_the_second_program() {
    let mut numbers = BTreeSet::new();
    let generated = (0..RANDOM_CASES).map(random_case);
    let damaged = (0..RANDOM_DAMAGED).map(damaged_table);
    for Case { name, file } in fixed_cases().into_iter().chain(generated).chain(damaged) {
        numbers.insert(compare(&file, &name));
    }
    assert_eq!(Vec::from_iter(numbers), [0, 1, 2, 3, 4]);
}

#[test]
fn the_flag_file_gives_itself_and_from_start_1_its_states_are_exchanged() {
    let flag = TableFile::flag();
    assert_eq!(drive(&["canonical", "-"], &flag.to_bytes()).out, flag.to_bytes());
    let from_1 = TableFile { start: 1, ..flag };
    let exchanged = TableFile::plain(2, 3, 0, &[(0, 1), (0, 1), (1, 1), (1, 0), (0, 0), (1, 0)]);
    assert_eq!(
        drive(&["canonical", "-"], &from_1.to_bytes()).out,
        exchanged.to_bytes()
    );
}

#[test]
fn what_is_written_reads_as_any_other_table() {
    let redrawn = drive(&["table", "examples/flag-redrawn.txt"], b"").out;
    let written = drive(&["canonical", "-"], &redrawn).out;
    let shown = drive(&["show", "-"], &TableFile::flag().to_bytes()).text();
    assert_eq!(drive(&["show", "-"], &written).text(), shown);
    assert_eq!(drive(&["canonical", "-"], &written).out, written);
}

/// A file that has no end is read only as far as shows that it is too long.
#[test]
fn a_file_that_is_too_long_is_refused() {
    let reason = "the file has under 16 or over 20,496 bytes, or does not end in DRIVE1";
    let said = format!("drive: the table is refused with 1: {reason}\n");
    let flag = TableFile::flag().to_bytes();
    let long = [vec![0; 20_497 - flag.len()], flag].concat();
    assert_eq!(drive(&["canonical", "-"], &long).failure(), said);
    assert_eq!(drive(&["canonical", "/dev/zero"], b"").failure(), said);
}
