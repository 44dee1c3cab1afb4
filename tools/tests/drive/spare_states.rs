//! An object with a state that can't be reached from the start, on the table of `crates/listing_spare_state`.

use crate::program::{drive, drive_on};
use reference::table_file::TableFile;
use reference::trace::trace;

const TABLE: &str = "../crates/listing_spare_state/data/table.bin";
const LINES: &str = "../crates/listing_spare_state/stdin";
const PRINTED: &str = "../crates/listing_spare_state/stdout";

/// What check prints for three states and two operations of these kinds.
fn report(start: u16, kinds: [&str; 2]) -> String {
    let [first, second] = kinds;
    format!(
        "states       3\noperations   2\nstart state  {start}\nfree text    0 bytes\n\n\
         operation 0  {first}\noperation 1  {second}\n"
    )
}

#[test]
fn an_operation_that_moves_only_the_spare_state_is_reading() {
    assert_eq!(
        drive(&["check", TABLE], b"").text(),
        report(0, ["reading", "changing"])
    );
}

/// From state 2 all three states can be reached, and operation 0 moves that one.
#[test]
fn each_start_decides_which_operations_are_changing() {
    for (start, kinds) in [
        (0, ["reading", "changing"]),
        (1, ["reading", "changing"]),
        (2, ["changing", "changing"]),
    ] {
        let table = TableFile {
            start,
            ..TableFile::spare_state()
        };
        let checked = drive(&["check", "-"], &table.to_bytes()).text();
        assert_eq!(checked, report(start, kinds));
    }
}

#[test]
fn the_listing_is_told_as_by_the_second_program() {
    let [table, lines] = [TABLE, LINES].map(|path| std::fs::read(path).expect("a stored file"));
    let told = drive(&["run", TABLE, LINES], b"").text();
    assert_eq!(told, trace(&table, &lines).expect("an accepted table"));
    let printed = told.lines().filter_map(|line| line.strip_prefix("< "));
    let printed: String = printed.map(|line| format!("{line}\n")).collect();
    assert_eq!(printed, std::fs::read_to_string(PRINTED).expect("a stored file"));
}

/// Operation 0 is begun as reading and ends in one step; the announcement is empty all the while.
#[test]
fn an_operation_that_moves_only_the_spare_state_has_one_step() {
    let told = drive_on(
        "run",
        &TableFile::spare_state().to_bytes(),
        b"n 1\nb 0 0\nm\ns 0\n",
    )
    .text();
    let (_, last) = told.split_once("> b 0 0\n").expect("the begin");
    let expected = "  task 0 begins operation 0, reading
> m
  head            0000000000000000  state 0
  announcement 0  0000000000000000  empty
  marks 0
  it follows: the operations made so far lead to state 0
  no trace of task 0: idle, reading, or changing and not yet announced
< m 0000000000000000 0000000000000000 0
> s 0
  task 0  step   1  ReadOnly          read   head            0000000000000000                        state 0
  task 0 ends operation 0: response 10, not moved, own steps 1
< r 0 10 0
";
    assert_eq!(last, expected);
}
