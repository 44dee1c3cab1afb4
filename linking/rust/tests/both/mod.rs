//! The same call made through the archive and by the second program; answer, cells and row must be the same.

use drive_object::{Progress, Refusal, Task};
use reference::machine::Answer;
use reference::record::Record;
use reference::{file_calls, refusal};

/// Which calls begin and step are made by: those that are lent the row, or those that are lent the task's record alone.
#[derive(Clone, Copy, Debug)]
pub enum By {
    Row,
    Record,
}

impl By {
    pub const EACH: [By; 2] = [By::Row, By::Record];
}

/// What a call is lent.
#[derive(Clone)]
pub struct Lent {
    pub by: By,
    pub file: Vec<u8>,
    pub cells: Vec<u64>,
    pub row: Vec<Task>,
}

impl Lent {
    pub fn new(by: By, file: Vec<u8>, tasks: usize) -> Lent {
        Lent {
            by,
            file,
            cells: vec![0; tasks + 1],
            row: vec![Task::default(); tasks],
        }
    }

    /// The refusal's number, 0 if the call is accepted.
    pub fn start(&mut self) -> u8 {
        let mut second = self.second();
        let ours = drive_object::start(&self.file, &mut self.cells, &mut self.row);
        let theirs = file_calls::start(&self.file, &mut second.0, &mut second.1);
        self.compare(number(ours), second, numbered(theirs))
    }

    /// The refusal's number, 0 if the call is accepted.
    pub fn begin(&mut self, task: usize, operation: usize) -> u8 {
        let mut second = self.second();
        let ours = match self.by {
            By::Row => drive_object::begin(&self.file, &mut self.row, task, operation),
            By::Record => with_record(&mut self.row, task, |tasks, own| {
                drive_object::begin_record(&self.file, tasks, task, operation, own)
            }),
        };
        let theirs = file_calls::begin(&self.file, &mut second.1, task, operation);
        self.compare(number(ours), second, numbered(theirs))
    }

    /// The progress, or the refusal's number.
    pub fn step(&mut self, task: usize) -> Result<Progress, u8> {
        let mut second = self.second();
        let ours = match self.by {
            By::Row => drive_object::step(&self.file, &mut self.cells, &mut self.row, task),
            By::Record => with_record(&mut self.row, task, |tasks, own| {
                drive_object::step_record(&self.file, &mut self.cells, tasks, task, own)
            }),
        };
        let theirs = file_calls::step(&self.file, &mut second.0, &mut second.1, task);
        let theirs = theirs.map(progress_of).map_err(refusal::Refusal::number);
        self.compare(ours.map_err(Refusal::number), second, theirs)
    }

    fn second(&self) -> (Vec<u64>, Vec<Record>) {
        (self.cells.clone(), self.row.iter().map(record_of).collect())
    }

    fn compare<A: PartialEq + std::fmt::Debug>(
        &self,
        ours: A,
        second: (Vec<u64>, Vec<Record>),
        theirs: A,
    ) -> A {
        let row: Vec<Record> = self.row.iter().map(record_of).collect();
        assert_eq!((&ours, &self.cells, &row), (&theirs, &second.0, &second.1));
        ours
    }
}

/// Hands over a task's record, with the number of tasks. A task past the row gets a copy of the first record, which must
/// be left as it was.
fn with_record<A>(row: &mut [Task], task: usize, call: impl FnOnce(usize, &mut Task) -> A) -> A {
    let tasks = row.len();
    let first = row.first().copied().unwrap_or_default();
    let mut past = first;
    let answer = call(tasks, row.get_mut(task).unwrap_or(&mut past));
    assert_eq!(past, first);
    answer
}

fn number(answer: Result<(), Refusal>) -> u8 {
    answer.map_or_else(Refusal::number, |()| 0)
}

fn numbered(answer: Result<(), refusal::Refusal>) -> u8 {
    answer.map_or_else(refusal::Refusal::number, |()| 0)
}

fn progress_of(answer: Answer) -> Progress {
    match answer {
        Answer::Running => Progress::Running,
        Answer::Ended {
            response,
            moved,
            steps,
        } => Progress::Ended {
            response,
            moved,
            steps,
        },
    }
}

/// A number that is no byte is no phase and no task: the second program has 255 for it.
fn record_of(task: &Task) -> Record {
    Record {
        phase: u8::try_from(task.phase).unwrap_or(u8::MAX),
        operation: task.operation,
        priority: u8::try_from(task.priority).unwrap_or(u8::MAX),
        payload: task.payload,
        head: task.head,
        announcement: task.announcement,
        steps: task.steps,
    }
}
