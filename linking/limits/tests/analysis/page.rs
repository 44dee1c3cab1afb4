//! The tables of the page.

use limits::cycles::Cycle;
use limits::given::Given;
use limits::met;
use limits::report::{grouped, marked, tables, CALLS};
use limits::turns::Turn;

use crate::code::{assert_refused, limits};

const fn turn(depth: usize, most: u64, over: &'static str) -> Turn {
    Turn { depth, most, over }
}

const LOOPS: [Turn; 3] = [
    turn(1, 32, "operations"),
    turn(2, 256, "states"),
    turn(1, 8, "records"),
];

const GIVEN: Given = Given {
    turns: &[("f", &LOOPS)],
    cycles: &[Cycle {
        members: &["g", "h"],
        most: 4,
        fall: 2,
        over: "moves",
    }],
};

#[test]
fn numbers_are_grouped() {
    assert_eq!(
        [0, 999, 1000, 20_496, 1_002_003].map(grouped),
        ["0", "999", "1,000", "20,496", "1,002,003"]
    );
}

#[test]
fn each_call_has_a_row() {
    let functions = CALLS.map(|call| match call {
        "drive_start" => (call, "sub $0x400,%rsp; call 2 @memset; add $0x400,%rsp; ret"),
        _ => (call, "ret"),
    });
    let known = limits(&functions, "", &[]).unwrap();
    let text = tables(&known, &GIVEN).unwrap();
    assert!(
        text.contains("\n| `drive_check` | 8 | 0 | 1 | none |\n"),
        "{text}"
    );
    assert!(
        text.contains("\n| `drive_start` | 1,040 + `memset` | 0 | 4 + `memset` | none |\n"),
        "{text}"
    );
    assert!(
        text.contains("\n| `f` | 32 operations × 256 states; 8 records |\n\n"),
        "{text}"
    );
    assert!(
        text.ends_with("\n| `g`, `h` | 4 moves | 2 | no loop, no further call |\n"),
        "{text}"
    );
}

#[test]
fn other_calls_are_refused() {
    let few = limits(&[("drive_check", "ret")], "", &[]).unwrap();
    assert_refused(tables(&few, &GIVEN), "drive_canonical is not in the archive");
    for name in ["drive_other", "desk_other"] {
        let other = limits(&[(name, "ret")], "", &[]).unwrap();
        assert_refused(tables(&other, &GIVEN), &format!("{name} is exported"));
    }
}

#[test]
fn the_page_has_its_tables_between_two_marks() {
    let page = "a\n\n<!-- limits -->\n\n| b |\n\n<!-- end of limits -->\n\nc\n";
    assert_eq!(marked(page), Some("| b |"));
    assert_eq!(marked("a\n<!-- limits -->\nb\n"), None);
}

#[test]
fn what_is_met_is_held_to_the_limits() {
    let known = limits(&[("drive_check", "nop; ret")], "", &[]).unwrap();
    let text = met::table(&known, "drive_check 1 8 a small table\n").unwrap();
    assert!(
        text.ends_with("\n| `drive_check` | 2 | 1 | 8 | 8 | a small table |\n"),
        "{text}"
    );
    assert_refused(
        met::table(&known, "drive_check 3 8 a small table\n"),
        "a limit is passed",
    );
    assert_refused(
        met::table(&known, "drive_check 1 9 a small table\n"),
        "a limit is passed",
    );
    assert_refused(
        met::table(&known, "drive_check many\n"),
        "printed: drive_check many",
    );
}
