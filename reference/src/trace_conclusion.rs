//! What the words of a print say of the run, wherever in it the print was taken. At every point the announcement of a task with
//! no changing operation pending has kind 0, no cell has a mark of such a task, the head's holder has a changing operation
//! pending, and the head's state is the one that the order has reached. Here these facts are turned round.

use std::collections::{BTreeMap, BTreeSet};

use crate::cells::{has_mark, kind, Head, MOST_TASKS};
use crate::machine::HEAD_CELL;

/// What a cell has of a task, in the order in which it is told.
#[derive(Clone, Copy, Debug, PartialEq, Eq, PartialOrd, Ord)]
enum Trace {
    Announced,
    Answered,
    Holds,
    Marks { cell: usize },
}

/// The traces of each task that has left some.
type Traces = BTreeMap<usize, BTreeSet<Trace>>;

pub fn conclusion_lines(cells: &[u64]) -> Vec<String> {
    let tasks = cells.len() - 1;
    let state = Head::decode(cells[HEAD_CELL]).state;
    let reached = format!("it follows: the operations made so far lead to state {state}");
    let traces = traces_in(cells);
    let pending = traces.range(..tasks).map(|(task, traces)| {
        let reasons = reasons(traces);
        format!("it follows: task {task} has a changing operation pending: {reasons}")
    });
    let untraced = (0..tasks).filter(|task| !traces.contains_key(task));
    let untraced = untraced_line(untraced.collect());
    [reached].into_iter().chain(pending).chain(untraced).collect()
}

/// Goes through the cells and notes of whom each one has a trace.
fn traces_in(cells: &[u64]) -> Traces {
    let mut traces = Traces::new();
    let mut note = |task: usize, trace: Trace| {
        traces.entry(task).or_default().insert(trace);
    };
    for (cell, &word) in cells.iter().enumerate() {
        match (cell, kind(word)) {
            (HEAD_CELL, _) | (_, 0) => {}
            (_, 2) => note(cell - 1, Trace::Answered),
            _ => note(cell - 1, Trace::Announced),
        }
        if let (HEAD_CELL, Some(holder)) = (cell, Head::decode(word).holder) {
            note(holder.task, Trace::Holds);
        }
        let marked = (0..MOST_TASKS).filter(|&task| has_mark(word, task));
        marked.for_each(|task| note(task, Trace::Marks { cell }));
    }
    traces
}

/// The traces in words; the cells of all marks together.
fn reasons(traces: &BTreeSet<Trace>) -> String {
    let (mut reasons, mut marked) = (Vec::new(), Vec::new());
    for trace in traces {
        match *trace {
            Trace::Announced => reasons.push("announced".to_string()),
            Trace::Answered => reasons.push("answered".to_string()),
            Trace::Holds => reasons.push("holds the head".to_string()),
            Trace::Marks { cell } => marked.push(place(cell)),
        }
    }
    if !marked.is_empty() {
        reasons.push(format!("its mark stands in {}", marked.join(" and ")));
    }
    reasons.join(", ")
}

fn place(cell: usize) -> String {
    match cell.checked_sub(1) {
        None => "the head".to_string(),
        Some(task) => format!("announcement {task}"),
    }
}

fn untraced_line(tasks: Vec<usize>) -> Option<String> {
    let possible = "idle, reading, or changing and not yet announced";
    match tasks.as_slice() {
        [] => None,
        [task] => Some(format!("no trace of task {task}: {possible}")),
        several => {
            let numbers: Vec<String> = several.iter().map(usize::to_string).collect();
            Some(format!("no trace of tasks {}: {possible}", numbers.join(" ")))
        }
    }
}

#[cfg(test)]
mod tests {
    use super::*;

    const POSSIBLE: &str = "idle, reading, or changing and not yet announced";

    /// The lines without the one about the state, which is the first.
    fn of_tasks(cells: &[u64]) -> Vec<String> {
        let lines = conclusion_lines(cells);
        assert!(lines[0].starts_with("it follows: the operations made so far lead to state "));
        lines[1..].to_vec()
    }

    fn pending(task: usize, reasons: &str) -> String {
        format!("it follows: task {task} has a changing operation pending: {reasons}")
    }

    #[test]
    fn the_state_is_the_head_s() {
        for (head, state) in [(0, 0), (0x0100, 1), (0xff00, 255), (0x18fe_0103, 1)] {
            let expected = format!("it follows: the operations made so far lead to state {state}");
            assert_eq!(conclusion_lines(&[head, 0])[0], expected);
        }
    }

    #[test]
    fn each_trace_alone_tells_of_an_operation() {
        assert_eq!(of_tasks(&[0, 0x0001_0100]), [pending(0, "announced")]);
        assert_eq!(of_tasks(&[0, 0x0000_0200]), [pending(0, "answered")]);
        assert_eq!(of_tasks(&[0, 0x0000_0300]), [pending(0, "announced")]);
        assert_eq!(of_tasks(&[0x0100_0000, 0]), [pending(0, "holds the head")]);
        assert_eq!(
            of_tasks(&[0x0001, 0]),
            [pending(0, "its mark stands in the head")]
        );
        assert_eq!(
            of_tasks(&[0, 0x0001]),
            [pending(0, "its mark stands in announcement 0")]
        );
    }

    #[test]
    fn traces_are_told_in_their_order() {
        let helped = of_tasks(&[0x0100_0001, 0x0001_0103, 0x0002_0100]);
        let all = "announced, holds the head, its mark stands in the head and announcement 0";
        let helper = pending(1, "announced, its mark stands in announcement 0");
        assert_eq!(helped, [pending(0, all), helper.clone()]);
        let by_word = [pending(0, "announced"), helper, pending(2, "holds the head")];
        assert_eq!(of_tasks(&[0x0300_0000, 0x0102, 0x0100, 0]), by_word);
        let answered = of_tasks(&[0x0100_0001, 0x0100_0203]);
        assert_eq!(answered, [pending(0, &all.replace("announced", "answered"))]);
        let everywhere = "its mark stands in the head and announcement 0 and announcement 1";
        assert_eq!(of_tasks(&[1, 1, 1])[0], pending(0, everywhere));
    }

    #[test]
    fn a_mark_is_a_trace_of_its_own_task_alone() {
        let of_another = of_tasks(&[0, 0x0002, 0]);
        let expected = [
            pending(1, "its mark stands in announcement 0"),
            format!("no trace of task 0: {POSSIBLE}"),
        ];
        assert_eq!(of_another, expected);
    }

    #[test]
    fn tasks_without_a_trace_are_told_together() {
        assert_eq!(of_tasks(&[0, 0]), [format!("no trace of task 0: {POSSIBLE}")]);
        let two = of_tasks(&[0, 0x0100, 0, 0x0200, 0]);
        assert_eq!(two.last(), Some(&format!("no trace of tasks 1 3: {POSSIBLE}")));
        let eight = of_tasks(&[0xff00, 0, 0, 0, 0, 0, 0, 0, 0]);
        assert_eq!(eight, [format!("no trace of tasks 0 1 2 3 4 5 6 7: {POSSIBLE}")]);
        assert_eq!(of_tasks(&[0, 0x0100, 0x0200]).len(), 2);
    }

    #[test]
    fn of_a_task_that_there_is_not_nothing_is_said() {
        let none = [format!("no trace of tasks 0 1: {POSSIBLE}")];
        assert_eq!(of_tasks(&[0x0f00_0080, 0x00fc, 0]), none);
    }
}
