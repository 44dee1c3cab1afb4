//! The auditor on right prints, on prints altered by hand, and on those of wrong builds.

use std::collections::BTreeSet;

use crate::audit::Seen;
use crate::audit_cases::write_lines;
use crate::audited_script::Script;
use crate::bench::Bench;
use crate::cells::MOST_TASKS;
use crate::desk::{ring_table, ORDINARY};
use crate::random::Random;
use crate::rules::Rules;
use crate::table_file::TableFile;
use crate::wrong_prints;

/// Task 2 has a read pending, task 1 is idle, and task 0 sets the flag in 17 steps, with a print after every line.
fn script_of_a_set() -> Script {
    let steps = "s 0\nm\n".repeat(17);
    let input = format!("n 3\nm\nb 2 0\nm\nb 0 1\nm\n{steps}s 2\nm\n");
    Script::served_by(Rules::MACHINE, input.as_bytes())
}

/// Prints of the set: of the start, of announced operations, of a held head, of the response in its announcement, at rest.
const START: usize = 2;
const BEGUN: usize = 6;
const ANNOUNCED: usize = 8;
const HELD: usize = 18;
const ANSWERED: usize = 34;
const AT_REST: usize = 40;

#[test]
fn a_right_script_passes_and_its_prints_are_counted() {
    let set = script_of_a_set();
    assert_eq!(set.cells(ANNOUNCED), [0, 0x0001_0100, 0, 0]);
    assert_eq!(set.cells(HELD), [0x1100_0100, 0x0001_0100, 0, 0]);
    assert_eq!(set.cells(ANSWERED), [0x100, 0x0100_0200, 0, 0]);
    assert_eq!(set.cells(AT_REST), [0x100, 0, 0, 0]);
    let seen = Seen {
        prints: 21,
        with_holder: 8,
        quiet_beside_busy: 17,
        empty_with_mark: 0,
        with_reader: 19,
    };
    assert_eq!(set.audit(), Ok(seen));
}

#[test]
fn a_kind_of_an_idle_or_a_reading_task_breaks_fact_1() {
    let set = script_of_a_set();
    for line in [BEGUN, ANNOUNCED, HELD, ANSWERED, AT_REST] {
        for (task, kind) in [(1, 1), (1, 2), (2, 1), (2, 2), (2, 3)] {
            let altered = set.altered(line, |cells| cells[task + 1] |= kind << 8);
            assert_eq!(altered.found(line), "fact 1", "line {line}, task {task}");
        }
    }
}

/// Task 1 is idle, task 2 reads, and the others aren't there.
#[test]
fn a_mark_of_a_quiet_task_breaks_fact_2_in_every_cell() {
    let set = script_of_a_set();
    for line in [START, BEGUN, ANNOUNCED, HELD, ANSWERED] {
        for task in 1..MOST_TASKS {
            for cell in 0..=3 {
                let altered = set.altered(line, |cells| cells[cell] |= 1 << task);
                assert_eq!(altered.found(line), "fact 2", "line {line}, task {task}");
            }
        }
    }
}

#[test]
fn the_mark_of_a_busy_task_breaks_no_fact_and_that_of_the_same_task_before_and_after_does() {
    let set = script_of_a_set();
    for (line, found) in [
        (START, "fact 2"),
        (BEGUN, "nothing"),
        (HELD, "nothing"),
        (AT_REST, "fact 2"),
    ] {
        let altered = set.altered(line, |cells| cells[3] |= 1);
        assert_eq!(altered.found(line), found, "line {line}");
    }
}

/// Holders 2 and 3 are the idle and the reading task, and those from 4 up aren't there.
#[test]
fn a_quiet_holder_breaks_fact_3() {
    let set = script_of_a_set();
    for line in [BEGUN, ANNOUNCED, HELD, ANSWERED] {
        for holder in 2..16 {
            let altered = set.altered(line, |cells| cells[0] = cells[0] & !(15 << 24) | holder << 24);
            assert_eq!(altered.found(line), "fact 3", "line {line}, holder {holder}");
        }
    }
    let altered = set.altered(AT_REST, |cells| cells[0] |= 1 << 24);
    assert_eq!(altered.found(AT_REST), "fact 3");
}

#[test]
fn another_state_breaks_fact_4_at_every_print() {
    let set = script_of_a_set();
    for line in set.prints() {
        for bit in 8..16 {
            let altered = set.altered(line, |cells| cells[0] ^= 1 << bit);
            assert_eq!(altered.found(line), "fact 4", "line {line}, bit {bit}");
        }
    }
}

/// In a held head it is the holder's response too.
#[test]
fn a_state_at_the_place_of_the_response_is_found() {
    let set = script_of_a_set();
    for (line, found) in [(HELD, "carried"), (ANSWERED, "fact 4"), (AT_REST, "fact 4")] {
        let altered = set.altered(line, |cells| cells[0] = cells[0] & !0x100 | 0x1_0000);
        assert_eq!(altered.found(line), found, "line {line}");
    }
    let unheld = set.altered(HELD, |cells| cells[0] = 0x100);
    assert_eq!(unheld.found(HELD), "fact 4");
}

/// A holder's reply, or one in an announcement, is that of an operation that has been entered; what has none, or is
/// announced, is the operation that was begun and hasn't been entered.
#[test]
fn what_the_cells_carry_of_an_operation_agrees_with_some_order() {
    let set = script_of_a_set();
    for (line, cell, bits) in [
        (BEGUN, 1, 0x0002_0100),
        (BEGUN, 1, 0x0100_0200),
        (ANNOUNCED, 0, 1 << 24),
        (ANNOUNCED, 1, 3 << 16),
        (ANNOUNCED, 1, 3 << 8),
        (HELD, 0, 1 << 16),
        (HELD, 0, 1 << 28),
        (ANSWERED, 1, 1 << 16),
        (ANSWERED, 1, 1 << 24),
        (ANSWERED, 1, 0x0100_0200),
    ] {
        let altered = set.altered(line, |cells| cells[cell] ^= bits);
        assert_eq!(altered.found(line), "carried", "line {line}: {bits:x}");
    }
}

/// Lines on four rings, how often each is given, with a print after every one, and the tasks that are busy then.
const TWO_RUNS: [(&str, usize, &[usize]); 24] = [
    ("n 8", 1, &[]),
    ("s 7", 1, &[]), // refused
    ("b 7 1", 1, &[7]),
    ("b 6 0", 1, &[7]),
    ("s 7", 3, &[7]),
    ("?", 1, &[7]), // refused
    ("s 7", 4, &[7]),
    ("b 7 1", 1, &[7]), // refused
    ("b 2 1", 1, &[2, 7]),
    ("s 2", 4, &[2, 7]),
    ("b 8 1", 1, &[2, 7]), // refused
    ("d 7", 1, &[2]),
    ("d 2", 1, &[]),
    ("b 0 1", 1, &[0]),
    ("n 9", 1, &[0]), // refused
    ("n 5", 1, &[]),
    ("b 4 1", 1, &[4]),
    ("b 1 0", 1, &[4]),
    ("s 4", 7, &[4]),
    ("s 5", 1, &[4]), // refused
    ("b 3 1", 1, &[3, 4]),
    ("s 3", 3, &[3, 4]),
    ("d 3", 1, &[4]),
    ("d 4", 1, &[]),
];

/// The script, and with the number of every print the tasks that are busy then.
fn two_runs() -> (Script, Vec<(usize, &'static [usize])>) {
    let rings = ring_table(&[1, ORDINARY].repeat(4)).unwrap();
    let input: String = TWO_RUNS
        .iter()
        .map(|(line, times, _)| format!("{line}\nm\n").repeat(*times))
        .collect();
    let script = Script::served_on(rings, Rules::MACHINE, input.as_bytes());
    let busy = TWO_RUNS
        .iter()
        .flat_map(|&(_, times, busy)| std::iter::repeat_n(busy, times));
    let prints = script.prints().into_iter().zip(busy).collect();
    (script, prints)
}

#[test]
fn the_two_runs_have_five_states_six_refused_lines_and_held_heads() {
    let (script, prints) = two_runs();
    assert_eq!(script.lines[0].1.as_deref(), Some("n 8 5 3"));
    let refused = |printed: &Option<String>| printed.as_ref().is_some_and(|text| text.starts_with('x'));
    assert_eq!(script.lines.iter().filter(|line| refused(&line.1)).count(), 6);
    assert_eq!(prints.len(), script.prints().len());
    let seen = script.audit().unwrap();
    assert_eq!(seen.prints, prints.len());
    assert!(seen.with_holder > 5 && seen.with_reader > 20, "{seen:?}");
}

/// In each print of two runs are altered, one at a time: the kind of every quiet task, the mark of every task in every cell,
/// which only breaks a fact if the task is quiet, the holder to every quiet task, and every bit of the state.
#[test]
fn whatever_is_altered_in_two_runs_of_many_tasks_is_found() {
    let (script, prints) = two_runs();
    for (line, busy) in prints {
        let cells = script.cells(line).len();
        let assert_found = |cell: usize, bits: u64, fact: &str| {
            let altered = script.altered(line, |cells| cells[cell] ^= bits);
            assert_eq!(altered.found(line), fact, "line {line}, cell {cell}: {bits:x}");
        };
        let quiet = |task: &usize| !busy.contains(task);
        for task in (0..cells - 1).filter(quiet) {
            (1..4).for_each(|kind| assert_found(task + 1, kind << 8, "fact 1"));
        }
        for task in 0..MOST_TASKS {
            let found = if quiet(&task) { "fact 2" } else { "nothing" };
            (0..cells).for_each(|cell| assert_found(cell, 1 << task, found));
        }
        let old = script.cells(line)[0] >> 24 & 15;
        for task in (0..15).filter(quiet) {
            assert_found(0, (old ^ (task as u64 + 1)) << 24, "fact 3");
        }
        (8..16).for_each(|bit| assert_found(0, 1 << bit, "fact 4"));
    }
}

#[test]
fn the_number_of_cells_and_the_count_of_marks_are_tested() {
    let set = script_of_a_set();
    let short = set.altered(HELD, |cells| cells.truncate(3));
    let long = set.altered(HELD, |cells| cells.push(0));
    assert_eq!(short.found(HELD), "3 cells for 3 tasks");
    assert_eq!(long.found(HELD), "5 cells for 3 tasks");
    let marked = set.printing(
        START,
        "m 0000000000000000 0000000000000000 0000000000000000 0000000000000000 1",
    );
    assert_eq!(marked.found(START), "1 marks are counted, the cells have 0");
}

/// The set ends in line 39, with response 0 and moved.
#[test]
fn an_answer_that_no_order_gives_is_refused() {
    let set = script_of_a_set();
    assert_eq!(set.lines[38].1.as_deref(), Some("r 0 0 1"));
    for answer in ["r 0 1 1", "r 0 0 0"] {
        assert_eq!(set.printing(39, answer).found(39), "fact 4");
    }
    for other in ["r 1 0 1", "x 10", "n 3 2 3"] {
        assert!(set
            .printing(39, other)
            .found(39)
            .starts_with("a step of task 0 can't print"));
    }
}

/// The read ends in line 41; it was pending in both states.
#[test]
fn a_read_may_have_been_entered_in_every_state_since_its_begin() {
    let set = script_of_a_set();
    for (answer, found) in [
        ("r 2 0 0", "nothing"),
        ("r 2 1 0", "nothing"),
        ("r 2 2 0", "fact 4"),
        ("r 2 1 1", "fact 4"),
    ] {
        assert_eq!(set.printing(41, answer).found(41), found, "{answer}");
    }
    let late = b"n 2\nm\nb 0 1\nm\nd 0\nm\nb 1 0\nm\ns 1\nm\n";
    let read = Script::served_by(Rules::MACHINE, late);
    assert_eq!(read.printing(9, "r 1 1 0").found(9), "nothing");
    assert_eq!(read.printing(9, "r 1 0 0").found(9), "fact 4");
}

/// Task 0 has applied its first set, so in its second operation it helps task 1 before itself: line 13 enters a clear and then
/// a set, and the other way round the state would be 0 after it.
#[test]
fn in_a_drive_several_operations_may_be_entered() {
    let lines = b"n 2\nm\nb 0 1\nm\nd 0\nm\nb 1 2\nm\ns 1\nm\nb 0 1\nm\nd 0\nm\n";
    let drive = Script::served_by(Rules::MACHINE, lines);
    assert_eq!(drive.lines[12].1.as_deref(), Some("r 0 0 1"));
    assert_eq!(drive.cells(14), [0x100, 0, 0x0101_0200]);
    assert!(drive.audit().is_ok());
    assert_eq!(drive.printing(13, "r 0 1 0").found(14), "fact 4");
    assert_eq!(drive.altered(14, |cells| cells[0] = 0).found(14), "fact 4");
    let other_order = drive.printing(13, "r 0 1 0").altered(14, |cells| cells[0] = 0);
    assert_eq!(other_order.found(14), "nothing");
}

#[test]
fn a_refused_line_prints_its_number_and_an_accepted_begin_nothing() {
    let lines = "?\nb 0 0\nn 0\nn 2\nb 2 0\nb 0 3\nb 0 1\nb 0 1\ns 1\nd 2\nn 9\n?\nd 0\nm\n";
    let right = Script::served_by(Rules::MACHINE, lines.as_bytes());
    let printed = [
        "x 13", "x 13", "x 5", "n 2 2 3", "x 7", "x 8", "", "x 9", "x 10", "x 7", "x 5", "x 13", "r 0 0 1",
    ];
    assert!(right.audit().is_ok());
    for (line, text) in (1..).zip(printed) {
        assert!(right.printing(line, text).audit().is_ok(), "line {line}");
        for other in ["", "x 8", "x 9", "n 2 2 4", "r 1 0 1"] {
            let accepted = right.printing(line, other).audit().is_ok();
            assert_eq!(accepted, other == text, "line {line}: {other}");
        }
    }
}

/// Task 2 reads throughout, and task 1 has linked the head while task 0 held it, and helps late: line 54 shows its mark in the
/// announcement that task 0 has emptied.
#[test]
fn the_stored_listing_in_mid_work_shows_what_it_is_for() {
    let path = concat!(env!("CARGO_MANIFEST_DIR"), "/../crates/listing_mid_work/stdin");
    let listing = Script::served_by(Rules::MACHINE, &std::fs::read(path).unwrap());
    assert_eq!(listing.cells(54), [0x100, 2, 0x0002_0100, 0]);
    let seen = Seen {
        prints: 49,
        with_holder: 20,
        quiet_beside_busy: 44,
        empty_with_mark: 1,
        with_reader: 47,
    };
    assert_eq!(listing.audit(), Ok(seen));
}

/// The facts that the auditor finds broken in some scripts of a build, and in how many of 100 scripts it finds one.
fn broken_by(rules: Rules) -> (BTreeSet<String>, usize) {
    let file = TableFile::flag().to_bytes();
    let mut facts = BTreeSet::new();
    let mut scripts = 0;
    for seed in 0..100 {
        let bench = Bench::new(&file).unwrap().with_rules(rules);
        let input = write_lines(bench, &mut Random::new(seed));
        if let Err(said) = Script::served_by(rules, &input).audit() {
            facts.extend(said.split(": ").nth(1).map(str::to_string));
            scripts += 1;
        }
    }
    (facts, scripts)
}

#[test]
fn the_prints_of_the_right_machine_break_no_fact() {
    assert_eq!(broken_by(Rules::MACHINE), (BTreeSet::new(), 0));
}

/// The numbers are those of docs/WRONG_BUILDS.md, "in prints"; who empties its announcement without a look at the head may
/// leave its mark there too, which is seen first.
#[test]
fn the_prints_of_wrong_builds_break_the_facts() {
    for (rules, facts, scripts) in [
        (wrong_prints::response_keeps_mark(), &["fact 2"][..], 17),
        (wrong_prints::validate_keeps_mark(), &["fact 2"], 10),
        (wrong_prints::empty_keeps_mark(), &["fact 2"], 13),
        (wrong_prints::exit_keeps_mark(), &["fact 2"], 14),
        (wrong_prints::exit_keeps_head(), &["fact 2", "fact 3"], 5),
        (wrong_prints::reading_announced(), &["fact 1"], 67),
    ] {
        let (found, refused) = broken_by(rules);
        assert_eq!(
            (found, refused),
            (
                BTreeSet::from_iter(facts.iter().map(|fact| fact.to_string())),
                scripts
            )
        );
    }
}
