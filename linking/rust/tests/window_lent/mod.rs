//! What is lent to the archive's window calls: the windows are the middle of a longer buffer.

use drive_object::{Progress, Refusal, Task, WINDOW_BYTES};
use reference::record::Record;
use reference::window_twin::{Call, Reading};

/// Bytes before and behind the lent windows.
pub const MARGIN: usize = 2 * WINDOW_BYTES;

/// What the archive is lent.
#[derive(Clone)]
pub struct Lent {
    pub file: Vec<u8>,
    pub cells: Vec<u64>,
    pub row: Vec<Task>,
    /// The windows with the bytes around them.
    pub buffer: Vec<u8>,
}

impl Lent {
    /// The bytes around the windows are filled by their places, or with the opposite of every bit.
    pub fn new(file: &[u8], cells: &[u64], row: &[Record], windows: &[u8], opposite: u8) -> Lent {
        let mut buffer: Vec<u8> = (0..windows.len() + 2 * MARGIN)
            .map(|at| at as u8 ^ opposite)
            .collect();
        buffer[MARGIN..][..windows.len()].copy_from_slice(windows);
        Lent {
            file: file.to_vec(),
            cells: cells.to_vec(),
            row: row.iter().map(task_of).collect(),
            buffer,
        }
    }

    pub fn windows(&self) -> &[u8] {
        &self.buffer[MARGIN..self.buffer.len() - MARGIN]
    }

    /// The refusal's number, 0 if the call is served.
    pub fn serve(&mut self, task: usize) -> u8 {
        let end = self.buffer.len() - MARGIN;
        let windows = &mut self.buffer[MARGIN..end];
        let answer = drive_object::serve_window(&self.file, &mut self.cells, &mut self.row, windows, task);
        answer.map_or_else(Refusal::number, |()| 0)
    }

    /// Makes a direct call.
    pub fn call(&mut self, call: Call) -> Reading {
        let answer = match call {
            Call::Begin { task, operation } => {
                drive_object::begin(&self.file, &mut self.row, task, operation).map(|()| Reading::Begun)
            }
            Call::Step { task } => {
                drive_object::step(&self.file, &mut self.cells, &mut self.row, task).map(without_count)
            }
        };
        answer.unwrap_or_else(|refusal| Reading::Refused(refusal.number()))
    }

    /// Asserts that file, cells, row and windows are these, and that the bytes around the windows are as they were.
    pub fn assert_is(&self, other: &Lent, name: &str) {
        assert_eq!(self.cells, other.cells, "{name}");
        assert_eq!(self.row, other.row, "{name}");
        assert_eq!(self.buffer, other.buffer, "{name}, with {MARGIN} bytes around");
        assert!(self.file == other.file, "{name}");
    }
}

pub fn task_of(record: &Record) -> Task {
    Task {
        head: record.head,
        announcement: record.announcement,
        payload: record.payload,
        steps: record.steps,
        operation: record.operation,
        priority: u16::from(record.priority),
        phase: u32::from(record.phase),
    }
}

fn without_count(progress: Progress) -> Reading {
    match progress {
        Progress::Running => Reading::Running,
        Progress::Ended { response, moved, .. } => Reading::Ended { response, moved },
    }
}

/// What an answer says of refusals: the number, or 0.
pub fn refused_with(answer: Reading) -> u8 {
    match answer {
        Reading::Refused(number) => number,
        _ => 0,
    }
}
