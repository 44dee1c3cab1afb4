//! What is measured: the proved library through its archive, and the second program's calls with the same tests.

use drive_object::{Progress, Task};
use reference::file_calls;
use reference::machine::Answer;
use reference::record::Record;

/// The numbers of the phases that begin writes.
const READ_ONLY: u8 = 1;
const ANNOUNCE: u8 = 2;

fn first_phase(changing: bool) -> u8 {
    match changing {
        true => ANNOUNCE,
        false => READ_ONLY,
    }
}

/// A run of tasks over a table. Every call is accepted; one that isn't stops the benchmark.
pub trait Subject {
    fn start(file: Vec<u8>, tasks: usize) -> Self;
    fn begin(&mut self, task: usize, operation: usize);
    /// Whether the operation has ended.
    fn step(&mut self, task: usize) -> bool;
    /// Writes what an accepted begin leaves in an idle record, without the call.
    fn put_begun(&mut self, task: usize, operation: usize, changing: bool);
    /// Makes a task idle that has begun and made no step.
    fn put_idle(&mut self, task: usize);
}

pub struct Library {
    file: Vec<u8>,
    cells: Vec<u64>,
    row: Vec<Task>,
}

impl Subject for Library {
    fn start(file: Vec<u8>, tasks: usize) -> Library {
        let mut cells = vec![0; tasks + 1];
        let mut row = vec![Task::default(); tasks];
        drive_object::start(&file, &mut cells, &mut row).expect("start is accepted");
        Library { file, cells, row }
    }

    fn begin(&mut self, task: usize, operation: usize) {
        drive_object::begin(&self.file, &mut self.row, task, operation).expect("begin is accepted");
    }

    fn step(&mut self, task: usize) -> bool {
        let progress = drive_object::step(&self.file, &mut self.cells, &mut self.row, task);
        progress.expect("step is accepted") != Progress::Running
    }

    fn put_begun(&mut self, task: usize, operation: usize, changing: bool) {
        self.row[task].operation = operation as u16;
        self.row[task].phase = u32::from(first_phase(changing));
    }

    fn put_idle(&mut self, task: usize) {
        self.row[task].operation = 0;
        self.row[task].phase = 0;
    }
}

pub struct Second {
    file: Vec<u8>,
    cells: Vec<u64>,
    row: Vec<Record>,
}

impl Subject for Second {
    fn start(file: Vec<u8>, tasks: usize) -> Second {
        let mut cells = vec![0; tasks + 1];
        let mut row = vec![Record::default(); tasks];
        file_calls::start(&file, &mut cells, &mut row).expect("start is accepted");
        Second { file, cells, row }
    }

    fn begin(&mut self, task: usize, operation: usize) {
        file_calls::begin(&self.file, &mut self.row, task, operation).expect("begin is accepted");
    }

    fn step(&mut self, task: usize) -> bool {
        let answer = file_calls::step(&self.file, &mut self.cells, &mut self.row, task);
        answer.expect("step is accepted") != Answer::Running
    }

    fn put_begun(&mut self, task: usize, operation: usize, changing: bool) {
        self.row[task].operation = operation as u16;
        self.row[task].phase = first_phase(changing);
    }

    fn put_idle(&mut self, task: usize) {
        self.row[task].operation = 0;
        self.row[task].phase = 0;
    }
}
