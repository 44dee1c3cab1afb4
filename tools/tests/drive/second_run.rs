//! A run as the second program makes it, as far as a picture shows it: calls, operations, and what cells hold.

use reference::cells::{Announcement, Head};
use reference::machine::{Action, Outcome};
use reference::reply::Reply;
use reference::trace::served_lines;
use reference::trace_event::{Event, Step};

pub const REST: &str = "#d9f2d9";

const READING: &str = "#d8e4f2";
const CHANGING: &str = "#fbe3c2";
const CHANGING_MOVED: &str = "#f2b872";
const STOPPED: &str = "#f7f0e6";
pub const BARS: [&str; 4] = [READING, CHANGING, CHANGING_MOVED, STOPPED];

const FREE: &str = "#eeeeee";
const WAITING: &str = "#ffd9a8";
const RESPONSE: &str = "#cdb9e3";
const RESPONSE_MOVED: &str = "#b093d6";
pub const STRETCHES: [&str; 4] = [FREE, WAITING, RESPONSE, RESPONSE_MOVED];

/// A call as the picture shows it: its task, and for a step its cell and the mark's shape.
#[derive(Clone, Debug, PartialEq)]
pub struct Call {
    pub task: usize,
    pub step: Option<(usize, &'static str)>,
}

/// An operation: task, number, whether it is changing, first column, column after its end, and its reply if it has one.
pub struct Operation {
    pub task: usize,
    pub number: usize,
    changing: bool,
    pub columns: (usize, usize),
    reply: Option<Reply>,
}

impl Operation {
    /// What its label says that it answers.
    pub fn answer(&self) -> String {
        self.reply
            .map_or("pending".into(), |reply| reply.response.to_string())
    }

    fn fill(&self) -> &'static str {
        let moved = self.reply.is_some_and(|reply| reply.moved);
        match (self.changing, moved) {
            (false, _) => READING,
            (true, false) => CHANGING,
            (true, true) => CHANGING_MOVED,
        }
    }
}

#[derive(Default)]
pub struct Run {
    pub tasks: usize,
    pub calls: Vec<Call>,
    pub operations: Vec<Operation>,
    /// For each point the cells, and whether it is a point of rest.
    pub points: Vec<(Vec<u64>, bool)>,
}

impl Run {
    fn started(tasks: usize, state: usize) -> Run {
        let mut cells = vec![0; tasks + 1];
        cells[0] = (state as u64) << 8;
        Run {
            tasks,
            points: vec![(cells, true)],
            ..Run::default()
        }
    }

    fn take(&mut self, event: &Event) {
        match event {
            Event::Begun {
                task,
                operation,
                changing,
            } => self.begin(*task, *operation, *changing),
            Event::Stepped(step) => self.step(step),
            Event::Ended {
                task,
                response,
                moved,
                ..
            } => {
                let (response, moved) = (*response, *moved);
                self.end(*task, Reply { response, moved });
            }
            _ => {}
        }
    }

    fn begin(&mut self, task: usize, number: usize, changing: bool) {
        self.operations.push(Operation {
            task,
            number,
            changing,
            columns: (self.calls.len(), usize::MAX),
            reply: None,
        });
        self.call(Call { task, step: None }, None);
    }

    fn step(&mut self, step: &Step) {
        let shape = match (step.access.action, step.outcome) {
            (Action::Read, _) => "ring",
            (Action::Write(_), _) => "square",
            (_, Outcome::Swapped(false)) => "cross",
            _ => "disc",
        };
        let (task, cell) = (step.task, step.access.cell);
        let call = Call {
            task,
            step: Some((cell, shape)),
        };
        self.call(call, Some((cell, step.after)));
    }

    fn end(&mut self, task: usize, reply: Reply) {
        let pending = |operation: &&mut Operation| operation.task == task && operation.reply.is_none();
        let ended = self.operations.iter_mut().find(pending).expect("an operation");
        (ended.columns.1, ended.reply) = (self.calls.len(), Some(reply));
        let rests = self.rests();
        self.points.last_mut().expect("a point").1 = rests;
    }

    fn call(&mut self, call: Call, written: Option<(usize, u64)>) {
        let mut cells = self.points[self.points.len() - 1].0.clone();
        if let Some((cell, word)) = written {
            cells[cell] = word;
        }
        self.calls.push(call);
        let rests = self.rests();
        self.points.push((cells, rests));
    }

    fn rests(&self) -> bool {
        let pending = |operation: &Operation| operation.changing && operation.reply.is_none();
        !self.operations.iter().any(pending)
    }

    /// The bar's colour on a task's lane in a column.
    pub fn bar(&self, task: usize, column: usize) -> Option<&'static str> {
        let covers = |operation: &&Operation| {
            operation.task == task && operation.columns.0 <= column && column < operation.columns.1
        };
        let operation = self.operations.iter().find(covers)?;
        let called = self.calls[column..].iter().any(|call| call.task == task);
        Some(if called { operation.fill() } else { STOPPED })
    }

    /// Colour and label of a cell at a point.
    pub fn stretch(&self, cell: usize, point: usize) -> Option<(&'static str, String)> {
        let word = self.points[point].0[cell];
        if cell == 0 {
            let head = Head::decode(word);
            let fill = head.holder.map_or(FREE, |holder| response_fill(holder.reply));
            return Some((fill, head.state.to_string()));
        }
        match Announcement::decode(word) {
            Announcement::Empty => None,
            Announcement::Operation(number) => Some((WAITING, number.to_string())),
            Announcement::Response(reply) => Some((response_fill(reply), reply.response.to_string())),
        }
    }
}

fn response_fill(reply: Reply) -> &'static str {
    match reply.moved {
        true => RESPONSE_MOVED,
        false => RESPONSE,
    }
}

/// The runs of a table and lines.
pub fn runs(table: &[u8], input: &[u8]) -> Vec<Run> {
    let mut runs: Vec<Run> = Vec::new();
    for served in served_lines(table, input).into_iter().flatten() {
        for event in &served.events {
            match (event, runs.last_mut()) {
                (Event::Started { tasks, state, .. }, _) => runs.push(Run::started(*tasks, *state)),
                (event, Some(run)) => run.take(event),
                _ => {}
            }
        }
    }
    runs
}
