//! The runs of a session, column by column: a column for each accepted call of begin and step.

use crate::reply::Reply;
use crate::session::{Event, Step};

/// An accepted call, and whether the point after it is a point of rest.
pub struct Column {
    pub call: Call,
    pub rest: bool,
}

pub enum Call {
    Begin(usize),
    Step(Step),
}

/// An operation from the column of its begin to that of its end, if it has one.
pub struct Operation {
    pub task: usize,
    pub number: usize,
    pub changing: bool,
    pub first: usize,
    pub ended: Option<(usize, Reply)>,
}

/// An accepted start, and the accepted calls after it.
pub struct Run {
    pub tasks: usize,
    pub state: u64,
    pub columns: Vec<Column>,
    pub operations: Vec<Operation>,
}

/// The runs of a session's events.
pub fn runs(events: impl Iterator<Item = Event>) -> Vec<Run> {
    let mut runs: Vec<Run> = Vec::new();
    for event in events {
        match (event, runs.last_mut()) {
            (Event::Started { tasks }, _) => runs.push(Run {
                tasks,
                state: 0,
                columns: Vec::new(),
                operations: Vec::new(),
            }),
            (event, Some(run)) => run.take(event),
            _ => {}
        }
    }
    runs
}

impl Run {
    fn take(&mut self, event: Event) {
        let at = self.columns.len();
        match event {
            Event::Rest { state } if at == 0 => self.state = state,
            Event::Begun {
                task,
                operation,
                changing,
            } => {
                let number = operation;
                self.operations.push(Operation {
                    task,
                    number,
                    changing,
                    first: at,
                    ended: None,
                });
                self.add(Call::Begin(task));
            }
            Event::Stepped(step) => self.add(Call::Step(step)),
            Event::Ended { task, reply, .. } => {
                if let Some(operation) = self.pending().find(|operation| operation.task == task) {
                    operation.ended = Some((at - 1, reply));
                }
                let rest = self.rests();
                self.columns[at - 1].rest = rest;
            }
            _ => {}
        }
    }

    fn add(&mut self, call: Call) {
        let rest = self.rests();
        self.columns.push(Column { call, rest });
    }

    /// The column of the last call for a task.
    pub fn last_call(&self, task: usize) -> usize {
        let of = |column: &Column| match &column.call {
            Call::Begin(begun) => *begun == task,
            Call::Step(step) => step.task == task,
        };
        self.columns.iter().rposition(of).unwrap_or(0)
    }

    /// The column in which a task begins its next operation, or the run's end.
    pub fn next_begin(&self, operation: &Operation) -> usize {
        let later = |other: &&Operation| other.task == operation.task && other.first > operation.first;
        let next = self.operations.iter().find(later);
        next.map_or(self.columns.len(), |other| other.first)
    }

    fn pending(&mut self) -> impl Iterator<Item = &mut Operation> {
        self.operations
            .iter_mut()
            .filter(|operation| operation.ended.is_none())
    }

    /// Whether no changing operation is pending.
    fn rests(&mut self) -> bool {
        !self.pending().any(|operation| operation.changing)
    }
}
