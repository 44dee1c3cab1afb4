//! Prints taken in mid-work: the four facts that the cells show at every point of a run, by what the tasks have pending and
//! the state that the order has reached.

use crate::cells::{has_mark, kind, Head, MOST_TASKS};
use crate::configuration::{Call, CallAnswer, Configuration};
use crate::machine::{announcement_cell, Answer, HEAD_CELL};
use crate::table::Table;

/// The operation that each task has pending, kept from the calls and their answers alone.
#[derive(Clone, Copy, Debug, PartialEq, Eq)]
pub struct Pending {
    pub tasks: usize,
    operations: [Option<usize>; MOST_TASKS],
}

impl Pending {
    /// What is pending after a start.
    pub fn none(tasks: usize) -> Pending {
        Pending {
            tasks,
            operations: [None; MOST_TASKS],
        }
    }

    /// What the records of a point say; whether the calls and answers say the same is for the book to find out.
    pub fn of_records(point: &Configuration) -> Pending {
        let mut pending = Pending::none(point.tasks);
        for (operation, record) in pending.operations.iter_mut().zip(point.row()) {
            *operation = record.is_pending().then_some(usize::from(record.operation));
        }
        pending
    }

    /// An accepted begin opens an operation, a step that answers ended closes it.
    pub fn note(&mut self, call: Call, answer: CallAnswer) {
        match (call, answer) {
            (Call::Begin { task, operation }, Ok(_)) => self.begin(task, operation),
            (Call::Step { task }, Ok(Some(Answer::Ended { .. }))) => self.end(task),
            _ => {}
        }
    }

    pub fn begin(&mut self, task: usize, operation: usize) {
        self.operations[task] = Some(operation);
    }

    pub fn end(&mut self, task: usize) {
        self.operations[task] = None;
    }

    /// The task's operation; a task that isn't below n never has one.
    pub fn of(&self, task: usize) -> Option<usize> {
        self.operations.get(task).copied().flatten()
    }

    /// The task's operation, if it is a changing one.
    pub fn changing(&self, table: &Table, task: usize) -> Option<usize> {
        self.of(task).filter(|&operation| table.is_changing(operation))
    }

    /// The task is idle or only reads.
    pub fn is_quiet(&self, table: &Table, task: usize) -> bool {
        self.changing(table, task).is_none()
    }
}

/// The first of the four facts that does not hold.
pub fn check(table: &Table, pending: &Pending, reached: usize, cells: &[u64]) -> Result<(), String> {
    check_cells(table, pending, cells)?;
    check_state(reached, cells)
}

/// The first of facts 1 to 3 that does not hold of cells that are as many as the tasks need.
pub fn check_cells(table: &Table, pending: &Pending, cells: &[u64]) -> Result<(), String> {
    let quiet = |task: &usize| pending.is_quiet(table, *task);
    (0..pending.tasks)
        .filter(quiet)
        .try_for_each(|task| check_kind(task, cells))?;
    (0..MOST_TASKS)
        .filter(quiet)
        .try_for_each(|task| check_marks(task, cells))?;
    match Head::decode(cells[HEAD_CELL]).holder {
        Some(holder) if pending.is_quiet(table, holder.task) => {
            let task = holder.task;
            Err(format!(
                "fact 3: cell 0 is held by task {task}, which has no changing operation pending"
            ))
        }
        _ => Ok(()),
    }
}

/// Fact 1, of a quiet task: the kind in its announcement is 0.
fn check_kind(task: usize, cells: &[u64]) -> Result<(), String> {
    let cell = announcement_cell(task);
    match kind(cells[cell]) {
        0 => Ok(()),
        kind => Err(format!(
            "fact 1: cell {cell} has kind {kind}, and task {task} has no changing operation pending"
        )),
    }
}

/// Fact 2, of a quiet task, also of one that isn't below n: no cell has its mark.
fn check_marks(task: usize, cells: &[u64]) -> Result<(), String> {
    match cells.iter().position(|&word| has_mark(word, task)) {
        None => Ok(()),
        Some(cell) => Err(format!(
            "fact 2: cell {cell} has the mark of task {task}, which has no changing operation pending"
        )),
    }
}

/// Fact 4: the head's state is the one that the order has reached.
pub fn check_state(reached: usize, cells: &[u64]) -> Result<(), String> {
    let state = usize::from(Head::decode(cells[HEAD_CELL]).state);
    match state == reached {
        true => Ok(()),
        false => Err(format!(
            "fact 4: cell 0 has state {state}, the order has reached {reached}"
        )),
    }
}

#[cfg(test)]
mod tests {
    use super::*;
    use crate::objects::flag;
    use crate::refusal::Refusal;

    const READ: usize = 0;
    const SET: usize = 1;

    fn ended() -> CallAnswer {
        Ok(Some(Answer::Ended {
            response: 0,
            moved: false,
            steps: 1,
        }))
    }

    /// Of three tasks, 0 sets, 1 reads and 2 is idle.
    fn pending() -> Pending {
        let mut pending = Pending::none(3);
        pending.begin(0, SET);
        pending.begin(1, READ);
        pending
    }

    /// The fact that does not hold with some cells, or nothing.
    fn broken(cells: [u64; 4]) -> String {
        let found = check(&flag(), &pending(), 1, &cells).err().unwrap_or_default();
        found.split(':').next().unwrap_or_default().to_string()
    }

    #[test]
    fn an_operation_is_pending_from_its_accepted_begin_until_its_step_answers_ended() {
        let mut pending = Pending::none(2);
        let begin = Call::Begin {
            task: 1,
            operation: SET,
        };
        let step = Call::Step { task: 1 };
        pending.note(begin, Err(Refusal::Pending));
        assert_eq!(pending.of(1), None);
        pending.note(begin, Ok(None));
        pending.note(step, Ok(Some(Answer::Running)));
        pending.note(Call::Step { task: 0 }, Err(Refusal::Idle));
        assert_eq!((pending.of(0), pending.of(1)), (None, Some(SET)));
        pending.note(step, ended());
        assert_eq!(pending, Pending::none(2));
    }

    #[test]
    fn a_task_that_reads_is_quiet_and_so_is_one_that_is_not_there() {
        let pending = pending();
        let quiet = |task: usize| pending.is_quiet(&flag(), task);
        assert_eq!(
            [0, 1, 2, 3, 7, 8, 14].map(quiet),
            [false, true, true, true, true, true, true]
        );
    }

    #[test]
    fn a_busy_task_may_announce_mark_and_hold() {
        for cells in [
            [0x100, 0, 0, 0],
            [0x101, 0x0001_0101, 1, 1],
            [0x1100_0101, 0x0001_0100, 0, 0],
            [0x1100_0101, 0x0100_0201, 0, 1],
        ] {
            assert_eq!(broken(cells), "", "{cells:x?}");
        }
    }

    #[test]
    fn the_announcement_of_a_quiet_task_has_kind_0() {
        for (task, kind) in [(1, 0x100), (1, 0x200), (2, 0x100), (2, 0x200), (2, 0x300)] {
            let mut cells = [0x100, 0x0001_0100, 0, 0];
            cells[task + 1] = kind;
            assert_eq!(broken(cells), "fact 1", "{cells:x?}");
        }
    }

    #[test]
    fn no_cell_has_the_mark_of_a_quiet_task() {
        for task in 1..MOST_TASKS {
            for cell in 0..4 {
                let mut cells = [0x100, 0x0001_0100, 0, 0];
                cells[cell] |= 1 << task;
                assert_eq!(broken(cells), "fact 2", "{cells:x?}");
            }
        }
    }

    #[test]
    fn the_holder_has_a_changing_operation_pending() {
        for holder in 2..16 {
            let cells = [0x100 | holder << 24, 0x0001_0100, 0, 0];
            assert_eq!(broken(cells), "fact 3", "{cells:x?}");
        }
    }

    #[test]
    fn the_state_is_the_one_that_the_order_has_reached() {
        for head in [0, 0x200, 0x8100, 0x1_0000, 0x1101_0000] {
            assert_eq!(broken([head, 0x0001_0100, 0, 0]), "fact 4", "{head:x}");
        }
    }
}
