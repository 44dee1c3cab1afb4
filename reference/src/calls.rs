//! Start, begin and step with their refusals, each tested in the order of docs/FORMATS.md.
//! A table that was read has passed 1 to 3, so begin and step test from 5 on.

use crate::ceiling::ceiling;
use crate::cells::{announcement_in_form, head_in_form, image, Head};
use crate::machine::{self, Access, Answer, Outcome, HEAD_CELL};
use crate::phase::Phase;
use crate::record::Record;
use crate::refusal::Refusal;
use crate::table::Table;

/// Fills the cells with the image of the start state and the row with idle tasks, task i with priority i.
pub fn start(table: &Table, cells: &mut [u64], row: &mut [Record]) -> Result<(), Refusal> {
    table.test_all_entries()?;
    test_row(row)?;
    test_cells(cells, row)?;
    cells.copy_from_slice(&image(table.start as u16, row.len()));
    for (task, record) in row.iter_mut().enumerate() {
        *record = Record::idle(task as u8);
    }
    Ok(())
}

/// Writes one task's record and no cell.
pub fn begin(table: &Table, row: &mut [Record], task: usize, operation: usize) -> Result<(), Refusal> {
    test_row(row)?;
    test_task(row, task)?;
    refuse_unless(operation < table.operations, Refusal::Operation)?;
    table.test_all_entries()?; // All of them: which states can be reached depends on every one.
    test_record(table, row, task)?;
    let old = row[task];
    refuse_unless(!old.is_pending(), Refusal::Pending)?;
    let phase = match table.is_changing(operation) {
        true => Phase::Announce,
        false => Phase::ReadOnly,
    };
    row[task] = Record {
        operation: operation as u16,
        ..old.with_phase(phase)
    };
    Ok(())
}

/// Makes one access to one cell and changes one task's record.
pub fn step(table: &Table, cells: &mut [u64], row: &mut [Record], task: usize) -> Result<Answer, Refusal> {
    step_by(machine::plan, machine::advance, table, cells, row, task)
}

/// A step by other rules than the machine's: the explorer must find the wrong ones.
pub fn step_by(
    plan: impl Fn(&Table, usize, &Record) -> Access,
    advance: impl Fn(&Table, usize, usize, &Record, Outcome) -> (Record, Answer),
    table: &Table,
    cells: &mut [u64],
    row: &mut [Record],
    task: usize,
) -> Result<Answer, Refusal> {
    let tasks = row.len();
    test_row(row)?;
    test_cells(cells, row)?;
    test_task(row, task)?;
    test_record(table, row, task)?;
    refuse_unless(row[task].is_pending(), Refusal::Idle)?;
    let access = plan(table, task, &row[task]);
    test_cell(table, tasks, access.cell, cells[access.cell])?;
    test_used_entry(table, &row[task], cells[access.cell])?;
    let outcome = machine::perform(cells, access);
    let (record, answer) = advance(table, tasks, task, &row[task], outcome);
    row[task] = record;
    Ok(answer)
}

fn refuse_unless(condition: bool, refusal: Refusal) -> Result<(), Refusal> {
    match condition {
        true => Ok(()),
        false => Err(refusal),
    }
}

fn test_row(row: &[Record]) -> Result<(), Refusal> {
    ceiling(row.len()).map(|_| ())
}

fn test_cells(cells: &[u64], row: &[Record]) -> Result<(), Refusal> {
    refuse_unless(cells.len() == row.len() + 1, Refusal::Cells)
}

fn test_task(row: &[Record], task: usize) -> Result<(), Refusal> {
    refuse_unless(task < row.len(), Refusal::Task)
}

fn test_record(table: &Table, row: &[Record], task: usize) -> Result<(), Refusal> {
    refuse_unless(row[task].is_in_form(table, row.len()), Refusal::Record)
}

fn test_cell(table: &Table, tasks: usize, cell: usize, word: u64) -> Result<(), Refusal> {
    let in_form = match cell {
        HEAD_CELL => head_in_form(word, table.states, tasks),
        _ => announcement_in_form(word, table.operations, tasks),
    };
    refuse_unless(in_form, Refusal::Cell)
}

/// Tests 4 on the entry that the step uses, if it uses one; `word` is the touched cell.
fn test_used_entry(table: &Table, record: &Record, word: u64) -> Result<(), Refusal> {
    match record.known_phase() {
        Phase::ReadOnly => {
            let state = usize::from(Head::decode(word).state);
            table.test_entry(state, usize::from(record.operation))
        }
        Phase::Apply(_) => {
            let (state, operation) = machine::entry_of_apply(record);
            table.test_entry(state, operation)
        }
        _ => Ok(()),
    }
}

#[cfg(test)]
mod tests {
    use super::*;
    use crate::objects::flag;
    use crate::table_file::TableFile;

    fn started(tasks: usize) -> (Table<'static>, Vec<u64>, Vec<Record>) {
        let table = flag();
        let mut cells = vec![7; tasks + 1];
        let mut row = vec![Record::default(); tasks];
        start(&table, &mut cells, &mut row).unwrap();
        (table, cells, row)
    }

    fn ended(response: u16, moved: bool, steps: u32) -> Answer {
        Answer::Ended {
            response,
            moved,
            steps,
        }
    }

    /// Runs a task alone to its end.
    fn finish(table: &Table, cells: &mut [u64], row: &mut [Record], task: usize) -> Answer {
        loop {
            let answer = step(table, cells, row, task).unwrap();
            if answer != Answer::Running {
                return answer;
            }
        }
    }

    #[test]
    fn start_gives_the_image_and_idle_tasks() {
        let (_, cells, row) = started(2);
        assert_eq!(cells, [0, 0, 0]);
        assert_eq!(row, [Record::idle(0), Record::idle(1)]);
    }

    #[test]
    fn start_tests_row_then_cells() {
        let table = flag();
        let start_with = |cells: usize, records: usize| {
            start(&table, &mut vec![0; cells], &mut vec![Record::default(); records])
        };
        assert_eq!(start_with(1, 0), Err(Refusal::Row));
        assert_eq!(start_with(9, 8), Ok(()));
        assert_eq!(start_with(10, 9), Err(Refusal::Row));
        assert_eq!(start_with(2, 2), Err(Refusal::Cells));
        assert_eq!(start_with(4, 2), Err(Refusal::Cells));
    }

    #[test]
    fn begin_tests_in_its_own_order() {
        let (table, _, mut row) = started(2);
        assert_eq!(begin(&table, &mut row, 2, 3), Err(Refusal::Task));
        assert_eq!(begin(&table, &mut row, 256, 0), Err(Refusal::Task));
        assert_eq!(begin(&table, &mut row, 1, 3), Err(Refusal::Operation));
        assert_eq!(begin(&table, &mut row, 1, 256), Err(Refusal::Operation));
        assert_eq!(begin(&table, &mut row, 1, 1), Ok(()));
        assert_eq!(begin(&table, &mut row, 1, 3), Err(Refusal::Operation));
        assert_eq!(begin(&table, &mut row, 1, 0), Err(Refusal::Pending));
        row[1].priority = 2;
        assert_eq!(begin(&table, &mut row, 1, 0), Err(Refusal::Record));
        assert_eq!(begin(&table, &mut row, 0, 0), Ok(()));
    }

    #[test]
    fn step_tests_in_its_own_order() {
        let (table, mut cells, mut row) = started(2);
        assert_eq!(step(&table, &mut cells[..2], &mut row, 2), Err(Refusal::Cells));
        assert_eq!(step(&table, &mut cells, &mut row, 2), Err(Refusal::Task));
        assert_eq!(step(&table, &mut cells, &mut row, 1), Err(Refusal::Idle));
        row[1].steps = 1;
        assert_eq!(step(&table, &mut cells, &mut row, 1), Err(Refusal::Record));
        row[1] = Record::idle(1);
        begin(&table, &mut row, 1, 1).unwrap();
        cells[2] = 0x300;
        let before = (cells.clone(), row.clone());
        assert_eq!(step(&table, &mut cells, &mut row, 1), Err(Refusal::Cell));
        assert_eq!((cells, row), before);
    }

    #[test]
    fn step_tests_the_entry_that_it_uses_after_the_cell() {
        let mut file = TableFile::flag();
        file.entries[0] = 2;
        let table = Table::read(file.kept()).unwrap();
        let mut row = [Record::idle(0).with_phase(Phase::ReadOnly)];
        assert_eq!(step(&table, &mut [0x200, 0], &mut row, 0), Err(Refusal::Cell));
        assert_eq!(step(&table, &mut [0, 0], &mut row, 0), Err(Refusal::NextState));
        assert_eq!(step(&table, &mut [0x100, 0], &mut row, 0), Ok(ended(1, false, 1)));
        let mut row = [Record::idle(0).with_phase(Phase::Apply(0))];
        assert_eq!(
            step(&table, &mut [0x100, 0], &mut row, 0),
            Err(Refusal::NextState)
        );
    }

    /// Three tasks and a head; task 0 has begun to set the flag, and its next step reads the head.
    fn about_to_read(head: u64) -> (Table<'static>, Vec<u64>, Vec<Record>) {
        let (table, mut cells, mut row) = started(3);
        cells[HEAD_CELL] = head;
        begin(&table, &mut row, 0, 1).unwrap();
        for _ in 0..2 {
            assert_eq!(step(&table, &mut cells, &mut row, 0), Ok(Answer::Running));
        }
        assert_eq!(row[0].known_phase(), Phase::LoadHead);
        (table, cells, row)
    }

    #[test]
    fn a_head_whose_holder_is_no_task_is_refused_where_it_is_read() {
        let (table, mut cells, mut row) = about_to_read(0x0700_0000);
        let before = (cells.clone(), row.clone());
        assert_eq!(step(&table, &mut cells, &mut row, 0), Err(Refusal::Cell));
        assert_eq!((cells, row), before);
    }

    #[test]
    fn a_reading_operation_is_refused_if_the_holder_is_no_task() {
        let (table, mut cells, mut row) = about_to_read(0x0700_0000);
        begin(&table, &mut row, 1, 0).unwrap();
        let before = (cells.clone(), row.clone());
        assert_eq!(step(&table, &mut cells, &mut row, 1), Err(Refusal::Cell));
        assert_eq!((cells, row), before);
    }

    #[test]
    fn a_head_whose_holder_is_the_last_task_is_served() {
        let (table, mut cells, mut row) = about_to_read(0x0300_0000);
        for phase in [Phase::LinkHead, Phase::LoadHelped(2), Phase::LinkHelped(2)] {
            assert_eq!(step(&table, &mut cells, &mut row, 0), Ok(Answer::Running));
            assert_eq!(row[0].known_phase(), phase);
        }
        assert_eq!(cells[HEAD_CELL], 0x0300_0001);
    }

    /// 11 is tested before 12, so it comes whatever the head is.
    #[test]
    fn a_record_whose_saved_holder_is_no_task_is_refused() {
        for head in [0, 0x0300_0000, 0x0700_0000] {
            let (table, mut cells, mut row) = about_to_read(0);
            cells[HEAD_CELL] = head;
            row[0] = row[0].with_phase(Phase::LinkHead).with_head(0x0700_0000);
            let before = (cells.clone(), row.clone());
            assert_eq!(begin(&table, &mut row, 0, 1), Err(Refusal::Record));
            assert_eq!(step(&table, &mut cells, &mut row, 0), Err(Refusal::Record));
            assert_eq!((cells, row), before);
        }
    }

    #[test]
    fn the_last_step_below_the_ceiling_is_accepted() {
        let (table, mut cells, mut row) = started(1);
        begin(&table, &mut row, 0, 1).unwrap();
        row[0].steps = 999;
        assert_eq!(step(&table, &mut cells, &mut row, 0), Ok(Answer::Running));
        assert_eq!(step(&table, &mut cells, &mut row, 0), Err(Refusal::Record));
    }

    #[test]
    fn a_reading_operation_ends_in_its_first_step() {
        let (table, mut cells, mut row) = started(1);
        begin(&table, &mut row, 0, 0).unwrap();
        assert_eq!(finish(&table, &mut cells, &mut row, 0), ended(0, false, 1));
    }

    /// The flag: who sets it in 0 or clears it in 1 moves it, and nobody else.
    #[test]
    fn an_operation_moves_by_the_entry_that_it_uses() {
        let (table, mut cells, mut row) = started(1);
        let mut made = |operation: usize| {
            begin(&table, &mut row, 0, operation).unwrap();
            match finish(&table, &mut cells, &mut row, 0) {
                Answer::Ended { response, moved, .. } => (response, moved),
                Answer::Running => panic!("the operation is over"),
            }
        };
        let (read, set, clear) = (0, 1, 2);
        assert_eq!(
            [read, clear, set].map(&mut made),
            [(0, false), (0, false), (0, true)]
        );
        assert_eq!(
            [read, set, clear].map(&mut made),
            [(1, false), (1, false), (1, true)]
        );
    }

    /// No begin leads there: the phase alone says that the operation reads.
    #[test]
    fn a_reading_step_answers_by_its_entry_too() {
        let reading = |operation: u16| {
            let mut row = [Record {
                operation,
                ..Record::idle(0).with_phase(Phase::ReadOnly)
            }];
            step(&flag(), &mut [0x1100_0100, 0], &mut row, 0)
        };
        assert_eq!(reading(0), Ok(ended(1, false, 1)));
        assert_eq!(reading(1), Ok(ended(1, false, 1)));
        assert_eq!(reading(2), Ok(ended(1, true, 1)));
    }

    #[test]
    fn damaged_moved_bits_are_refused() {
        let (table, mut cells, mut row) = started(1);
        begin(&table, &mut row, 0, 1).unwrap();
        cells[1] = 0x0100_0000;
        assert_eq!(step(&table, &mut cells, &mut row, 0), Err(Refusal::Cell));
        cells[1] = 0;
        for _ in 0..2 {
            assert_eq!(step(&table, &mut cells, &mut row, 0), Ok(Answer::Running));
        }
        cells[0] = 0x1000_0000;
        assert_eq!(step(&table, &mut cells, &mut row, 0), Err(Refusal::Cell));
        row[0].head = 0x1000_0000;
        assert_eq!(step(&table, &mut cells, &mut row, 0), Err(Refusal::Record));
    }

    #[test]
    fn a_changing_operation_alone_leaves_the_image_and_the_next_priority() {
        let (table, mut cells, mut row) = started(2);
        begin(&table, &mut row, 0, 1).unwrap();
        assert_eq!(finish(&table, &mut cells, &mut row, 0), ended(0, true, 17));
        assert_eq!(cells, image(1, 2));
        assert_eq!(row[0], Record::idle(1));
    }
}
