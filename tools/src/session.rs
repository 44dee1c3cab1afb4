//! The bench's lines served by the library, and what happened at each.

use drive_object::{begin, start, step, Progress, Refusal, Shape, Task};

use crate::lines::{self, Command};
use crate::object::Object;
use crate::phase::{begun_changing, is_idle, planned, Access, Planned};
use crate::refused;
use crate::reply::Reply;
use crate::word;

/// An accepted step.
pub struct Step {
    pub task: usize,
    /// Own steps since begin, this one counted.
    pub count: u32,
    pub planned: Planned,
    pub before: u64,
    pub after: u64,
}

impl Step {
    /// Whether it is a swap that found another word than the one compared with.
    pub fn failed(&self) -> bool {
        self.planned.purpose.access() == Access::Swap && self.before != self.planned.compared
    }
}

/// What a line brings about, event by event.
pub enum Event {
    Started {
        tasks: usize,
    },
    Begun {
        task: usize,
        operation: usize,
        changing: bool,
    },
    Stepped(Step),
    Ended {
        task: usize,
        operation: usize,
        reply: Reply,
        steps: u32,
    },
    /// A point of rest is reached, with the state in the head.
    Rest {
        state: u64,
    },
    Printed(Vec<u64>),
    Refused(Refusal),
    /// The line itself is refused.
    Unknown,
}

/// A line with its events and the line that the bench prints for it.
pub struct Served<'a> {
    pub line: &'a [u8],
    pub events: Vec<Event>,
    pub printed: Option<String>,
}

/// A whole session: the table's shape, and every line served.
pub struct Session<'a> {
    pub shape: Shape,
    pub served: Vec<Served<'a>>,
}

/// Serves all lines of an input, or says why the table isn't served.
pub fn serve<'a>(file: &[u8], input: &'a [u8]) -> Result<Session<'a>, String> {
    let shape = Object::of(file)?.shape;
    let mut run = None;
    let served = lines::cut(input)
        .map(|line| serve_line(file, shape, &mut run, line))
        .collect();
    Ok(Session { shape, served })
}

fn serve_line<'a>(file: &[u8], shape: Shape, run: &mut Option<Run>, line: &'a [u8]) -> Served<'a> {
    let mut events = Vec::new();
    let printed = match (lines::command(line), run.as_mut()) {
        (Some(Command::Start(tasks)), _) => match Run::start(file, tasks) {
            Ok(started) => {
                events.extend(started.opening());
                *run = Some(started);
                Some(format!("n {tasks} {} {}", shape.states, shape.operations))
            }
            Err(refusal) => refuse(&mut events, refusal),
        },
        (Some(command), Some(run)) => run.serve(file, command, &mut events),
        _ => {
            events.push(Event::Unknown);
            Some(format!("x {}", refused::LINE_NUMBER))
        }
    };
    Served {
        line,
        events,
        printed,
    }
}

fn refuse(events: &mut Vec<Event>, refusal: Refusal) -> Option<String> {
    events.push(Event::Refused(refusal));
    Some(format!("x {}", refusal.number()))
}

/// What the library is lent, and which operations are pending by the calls and their answers.
pub struct Run {
    pub cells: Vec<u64>,
    pub row: Vec<Task>,
    /// For each task its pending operation, and whether it is changing.
    pending: Vec<Option<(usize, bool)>>,
}

/// The cells and a task's record at a point.
pub struct Point {
    cells: Vec<u64>,
    record: Task,
}

impl Run {
    pub fn start(file: &[u8], tasks: usize) -> Result<Run, Refusal> {
        let mut cells = vec![0; tasks + 1];
        let mut row = vec![Task::default(); tasks];
        start(file, &mut cells, &mut row)?;
        Ok(Run {
            cells,
            row,
            pending: vec![None; tasks],
        })
    }

    /// The events of the start.
    pub fn opening(&self) -> [Event; 2] {
        let tasks = self.row.len();
        [Event::Started { tasks }, self.rest()]
    }

    fn rest(&self) -> Event {
        Event::Rest {
            state: word::state(self.cells[0]),
        }
    }

    /// The present point, as far as it concerns a task.
    pub fn point(&self, task: usize) -> Point {
        Point {
            cells: self.cells.clone(),
            record: self.row.get(task).copied().unwrap_or_default(),
        }
    }

    /// Serves a line other than `n`; the line that the bench prints.
    pub fn serve(&mut self, file: &[u8], command: Command, events: &mut Vec<Event>) -> Option<String> {
        let served = match command {
            Command::Begin(task, operation) => self.begin(file, task, operation, events).map(|()| None),
            Command::Step(task) => self.step(file, task, events),
            Command::Finish(task) => self.finish(file, task, events),
            // A start is served before a run is there.
            Command::Print | Command::Start(_) => {
                events.push(Event::Printed(self.cells.clone()));
                Ok(Some(self.cells_line()))
            }
        };
        served.unwrap_or_else(|refusal| refuse(events, refusal))
    }

    fn begin(
        &mut self,
        file: &[u8],
        task: usize,
        operation: usize,
        events: &mut Vec<Event>,
    ) -> Result<(), Refusal> {
        begin(file, &mut self.row, task, operation)?;
        let changing = begun_changing(&self.row[task]).expect("begin leaves phase 1 or 2");
        events.push(self.begun(task, operation, changing));
        Ok(())
    }

    fn begun(&mut self, task: usize, operation: usize, changing: bool) -> Event {
        self.pending[task] = Some((operation, changing));
        Event::Begun {
            task,
            operation,
            changing,
        }
    }

    /// One step; the bench's line if it ends the operation.
    fn step(&mut self, file: &[u8], task: usize, events: &mut Vec<Event>) -> Result<Option<String>, Refusal> {
        let before = self.point(task);
        let progress = step(file, &mut self.cells, &mut self.row, task)?;
        let planned = planned(task, &before.record).expect("the record of an accepted step has a phase");
        events.push(self.stepped(task, &before, planned));
        match progress {
            Progress::Running => Ok(None),
            Progress::Ended {
                response,
                moved,
                steps,
            } => {
                let response = u64::from(response);
                self.end(task, Reply { response, moved }, steps, events);
                Ok(Some(format!("r {task} {response} {}", u8::from(moved))))
            }
        }
    }

    fn stepped(&self, task: usize, before: &Point, planned: Planned) -> Event {
        let cell = planned.cell;
        Event::Stepped(Step {
            task,
            count: before.record.steps + 1,
            planned,
            before: before.cells[cell],
            after: self.cells[cell],
        })
    }

    /// What a call did that doesn't answer it, by the task's record before it and the one that it left: it began an
    /// operation, or made a step. `reply` is that of the operation, if the step has ended it.
    pub fn follow(&mut self, task: usize, before: &Point, reply: Reply, events: &mut Vec<Event>) {
        let left = self.point(task).record;
        if left == before.record {
            return;
        }
        match (planned(task, &before.record), begun_changing(&left)) {
            (Some(planned), _) => {
                events.push(self.stepped(task, before, planned));
                if is_idle(&left) {
                    self.end(task, reply, before.record.steps + 1, events);
                }
            }
            (None, Some(changing)) => events.push(self.begun(task, usize::from(left.operation), changing)),
            (None, None) => {}
        }
    }

    fn end(&mut self, task: usize, reply: Reply, steps: u32, events: &mut Vec<Event>) {
        let (operation, changing) = self.pending[task]
            .take()
            .expect("an operation that ends was begun");
        events.push(Event::Ended {
            task,
            operation,
            reply,
            steps,
        });
        let resting = !self.pending.iter().flatten().any(|(_, changing)| *changing);
        if changing && resting {
            events.push(self.rest());
        }
    }

    /// Steps until the operation ends, which the library's theorem says it does.
    fn finish(
        &mut self,
        file: &[u8],
        task: usize,
        events: &mut Vec<Event>,
    ) -> Result<Option<String>, Refusal> {
        loop {
            if let Some(line) = self.step(file, task, events)? {
                return Ok(Some(line));
            }
        }
    }

    fn cells_line(&self) -> String {
        let words: String = self.cells.iter().map(|word| format!(" {word:016x}")).collect();
        let marks: u32 = self.cells.iter().map(|word| word::marks(*word)).sum();
        format!("m{words} {marks}")
    }
}
