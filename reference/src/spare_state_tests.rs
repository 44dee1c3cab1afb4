//! States that can't be reached from the start: they make no operation changing, begin looks at their entries, and a head
//! that was loaded with one is served.

use crate::calls::{begin, start, step};
use crate::machine::Answer;
use crate::phase::Phase;
use crate::random_runs;
use crate::record::Record;
use crate::refusal::Refusal;
use crate::table::Table;
use crate::table_file::TableFile;
use crate::transition::System;

/// Which operations are changing.
fn changing(file: &TableFile) -> Vec<bool> {
    let table = Table::check(file.kept()).unwrap();
    (0..table.operations)
        .map(|operation| table.is_changing(operation))
        .collect()
}

#[test]
fn an_entry_of_an_unreachable_state_makes_no_operation_changing() {
    let mut file = TableFile::plain(2, 1, 0, &[(0, 0), (0, 0)]);
    assert_eq!(changing(&file), [false]);
    file.start = 1;
    assert_eq!(changing(&file), [true]);
}

#[test]
fn which_operations_are_changing_depends_on_the_start_state() {
    let mut file = TableFile::spare_state();
    for (start, expected) in [(0, [false, true]), (1, [false, true]), (2, [true, true])] {
        file.start = start;
        assert_eq!(changing(&file), expected);
    }
}

/// Operation 0 moves one state alone. Operation 1 leads from the start to 1 and from there to 2; nothing leads to 3.
#[test]
fn a_state_that_another_operation_reaches_makes_an_operation_changing() {
    let moving = |moved: usize| {
        let mut entries = [(0, 0), (1, 0), (1, 0), (2, 0), (2, 0), (2, 0), (3, 0), (0, 0)];
        entries[2 * moved].0 = 0;
        changing(&TableFile::plain(4, 2, 0, &entries))
    };
    assert_eq!(moving(1), [true, true]);
    assert_eq!(moving(2), [true, true]);
    assert_eq!(moving(3), [false, true]);
}

#[test]
fn each_of_32_operations_has_its_own_kind() {
    let moving = |moving: usize| {
        let mut entries = [(0, 0); 64];
        entries[32..].fill((1, 0));
        entries[moving].0 = 1;
        changing(&TableFile::plain(2, 32, 0, &entries))
    };
    for only in 0..32 {
        assert_eq!(
            moving(only),
            Vec::from_iter((0..32).map(|operation| operation == only))
        );
    }
}

#[test]
fn what_is_noted_is_what_is_found() {
    for start in 0..3 {
        let file = TableFile {
            start,
            ..TableFile::spare_state()
        };
        let table = Table::check(file.kept()).unwrap();
        let changing = |table: Table| [0, 1].map(|operation| table.is_changing(operation));
        assert_eq!(changing(table.with_changing_noted()), changing(table));
    }
}

/// One entry is out of range: of the operation that is begun or of the other, of a state that can be reached or not.
#[test]
fn begin_tests_all_entries_of_the_table_between_8_and_11() {
    let idle = Record::idle(0);
    for entry in 0..6 {
        let mut file = TableFile::spare_state();
        file.entries[2 * entry] = 3;
        let table = Table::read(file.kept()).unwrap();
        let begun = |row: &mut [Record], task, operation| begin(&table, row, task, operation).unwrap_err();
        for record in [
            idle,
            idle.with_phase(Phase::Announce),
            Record { phase: 15, ..idle },
        ] {
            for operation in [0, 1] {
                assert_eq!(begun(&mut [record], 0, operation), Refusal::NextState);
            }
            assert_eq!(begun(&mut [record], 0, 2), Refusal::Operation);
            assert_eq!(begun(&mut [record], 1, 0), Refusal::Task);
            assert_eq!(begun(&mut [record; 9], 0, 0), Refusal::Row);
        }
    }
}

fn ended(response: u16, moved: bool) -> Result<Answer, Refusal> {
    Ok(Answer::Ended {
        response,
        moved,
        steps: 1,
    })
}

#[test]
fn an_operation_that_moves_only_the_spare_state_ends_in_one_step() {
    let table = Table::check(TableFile::spare_state().kept()).unwrap();
    let (mut cells, mut row) = ([0; 2], [Record::default()]);
    start(&table, &mut cells, &mut row).unwrap();
    begin(&table, &mut row, 0, 0).unwrap();
    assert_eq!(row[0].known_phase(), Phase::ReadOnly);
    assert_eq!(step(&table, &mut cells, &mut row, 0), ended(10, false));
}

/// No run leads there: the head was loaded by hand. The answer is that of the entry used, and nothing changes.
#[test]
fn a_reading_step_in_the_spare_state_answers_that_it_moves() {
    let table = Table::check(TableFile::spare_state().kept()).unwrap();
    let (mut cells, mut row) = ([0x200, 0], [Record::idle(0)]);
    begin(&table, &mut row, 0, 0).unwrap();
    assert_eq!(step(&table, &mut cells, &mut row, 0), ended(30, true));
    assert_eq!((cells, row), ([0x200, 0], [Record::idle(0)]));
}

/// With it pending, and no other operation, the cells are the image.
#[test]
fn schedules_with_such_an_operation_keep_the_rules() {
    let table = Table::check(TableFile::spare_state().kept()).unwrap();
    for tasks in 1..=8 {
        let findings = random_runs::run(System::of_machine(&table), tasks, 3_000, 5).unwrap();
        assert!(findings.ended > 50, "{tasks} tasks: {}", findings.ended);
    }
}
