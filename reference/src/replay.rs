//! A schedule made again from the start, every call checked.

use crate::book::Book;
use crate::machine::Answer;
use crate::reduced::Chase;
use crate::table::Table;
use crate::transition::System;

/// Makes the calls of a schedule, given as the task of each: the begin of the operation if the task is idle, else a
/// step. The last call must end the victim's operation; its answer's count is given back.
pub fn replay(
    table: &Table,
    operation: usize,
    tasks: usize,
    victim: usize,
    calls: &[u8],
) -> Result<u32, String> {
    let system = System::of_machine(table);
    let chase = Chase {
        table,
        operation,
        victim,
    };
    if calls.iter().any(|&task| usize::from(task) >= tasks) {
        return Err("the schedule names a task that is not there".to_string());
    }
    let mut point = system.start(tasks)?;
    let mut book = Book::new(table, tasks);
    let mut last = None;
    for (place, &task) in calls.iter().enumerate() {
        let call = chase.call_of(&point, usize::from(task));
        let (after, answer) = system
            .make_checked(&point, call, &mut book)
            .map_err(|message| format!("{message}\nin call {place}: {call:?}"))?;
        point = after;
        last = Some((usize::from(task), answer));
    }
    match last {
        Some((task, Ok(Some(Answer::Ended { steps, .. })))) if task == victim => Ok(steps),
        _ => Err("the schedule does not end with the end of the operation".to_string()),
    }
}

#[cfg(test)]
mod tests {
    use super::*;
    use crate::objects::changing_objects;

    #[test]
    fn a_task_alone_is_replayed_with_its_count() {
        for (name, table, operation) in changing_objects() {
            assert_eq!(replay(&table, operation, 1, 0, &[0; 18]), Ok(17), "{name}");
            assert_eq!(replay(&table, operation, 3, 2, &[2; 18]), Ok(17), "{name}");
        }
    }

    #[test]
    fn only_the_steps_of_the_last_operation_are_counted() {
        let (_, table, operation) = changing_objects().remove(0);
        let twice = [0; 18 + 19];
        assert_eq!(replay(&table, operation, 2, 0, &twice), Ok(18));
    }

    #[test]
    fn a_schedule_that_ends_otherwise_is_refused() {
        let (_, table, operation) = changing_objects().remove(0);
        assert!(replay(&table, operation, 1, 0, &[]).is_err());
        assert!(replay(&table, operation, 1, 0, &[0; 17]).is_err());
        assert!(replay(&table, operation, 1, 0, &[0; 19]).is_err());
        assert!(replay(&table, operation, 2, 0, &[1; 18]).is_err());
        assert!(replay(&table, operation, 2, 0, &[2]).is_err());
    }
}
