//! The lines of `drive window`: those of the bench, and those about windows.

use drive_object::WINDOW_BYTES;

use crate::lines::{self, fields, number};

/// What a line asks for.
#[derive(Clone, Copy, PartialEq, Eq, Debug)]
pub enum Command {
    Bench(lines::Command),
    /// A console writes a byte of its task's window.
    Write {
        task: usize,
        byte: usize,
        value: u8,
    },
    /// The window call of a task.
    Call(usize),
    /// Whether a task's interrupt line is up.
    Line(usize),
}

/// The command of a line; none if its form isn't known.
pub fn command(line: &[u8]) -> Option<Command> {
    match fields(line)?.as_slice() {
        [b"w", task, byte, value] => Some(Command::Write {
            task: number(task)?,
            byte: number(byte).filter(|byte| *byte < WINDOW_BYTES)?,
            value: number(value)?.try_into().ok()?,
        }),
        [b"c", task] => Some(Command::Call(number(task)?)),
        [b"l", task] => Some(Command::Line(number(task)?)),
        _ => lines::command(line).map(Command::Bench),
    }
}
