//! What follows from a print of the cells, at whatever point of a run it was taken, by its words alone. At every point the head
//! has the state to which the operations made so far lead, and a task leaves a trace in the cells only while it has a changing
//! operation pending.

use crate::word::{cell_name, held, kind, marked_by, state};

/// The lines: the state, each task of which there is a trace, and the tasks of which there is none.
pub fn conclusions(cells: &[u64]) -> Vec<String> {
    let state = state(cells[0]);
    let mut lines = vec![format!(
        "it follows: the operations made so far lead to state {state}"
    )];
    let mut others = Vec::new();
    for task in 0..cells.len() - 1 {
        let traces = traces(cells, task);
        match traces.is_empty() {
            true => others.push(task),
            false => lines.push(format!(
                "it follows: task {task} has a changing operation pending: {}",
                traces.join(", ")
            )),
        }
    }
    lines.extend(without_trace(&others));
    lines
}

/// The traces of a task: each is one that no task without a changing operation pending has.
fn traces(cells: &[u64], task: usize) -> Vec<String> {
    let is_it = |other: u64| other == task as u64;
    let holds = held(cells[0]).is_some_and(|(holder, _)| is_it(holder));
    let marked: Vec<String> = (0..cells.len())
        .filter(|cell| marked_by(cells[*cell]).any(is_it))
        .map(place)
        .collect();
    let traces = [
        of_announcement(kind(cells[task + 1])),
        holds.then(|| "holds the head".into()),
        (!marked.is_empty()).then(|| format!("its mark stands in {}", marked.join(" and "))),
    ];
    traces.into_iter().flatten().collect()
}

/// The trace that an announcement has of its task, by its kind. With 2, a response, the operation has been made; 3 never occurs
/// in a run.
fn of_announcement(kind: u64) -> Option<String> {
    match kind {
        0 => None,
        2 => Some("answered".into()),
        _ => Some("announced".into()),
    }
}

fn place(cell: usize) -> String {
    match cell {
        0 => "the head".into(),
        _ => cell_name(cell),
    }
}

/// Nothing follows of these tasks but that nothing of them is announced.
fn without_trace(tasks: &[usize]) -> Option<String> {
    let numbers: String = tasks.iter().map(|task| format!(" {task}")).collect();
    let tasks = match tasks.len() {
        0 => return None,
        1 => "task",
        _ => "tasks",
    };
    Some(format!(
        "no trace of {tasks}{numbers}: idle, reading, or changing and not yet announced"
    ))
}
