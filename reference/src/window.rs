//! The register window: eight bytes a task, in which a console gives a command and finds what came of it.

use crate::file_calls::{begin, step};
use crate::machine::Answer;
use crate::record::Record;
use crate::refusal::Refusal;

pub const WINDOW_BYTES: usize = 8;
/// The eight bytes of one task.
pub type Window = [u8; WINDOW_BYTES];

/// The places of the bytes. Byte 7 has no name and is never written.
pub const OPERATION: usize = 0;
pub const COMMAND: usize = 1;
pub const STATUS: usize = 2;
pub const RESPONSE: usize = 3;
pub const REFUSAL: usize = 4;
pub const INTERRUPT: usize = 5;
pub const MASK: usize = 6;

/// The commands.
pub const NOTHING: u8 = 0;
pub const BEGIN: u8 = 1;
pub const STEP: u8 = 2;
pub const ACKNOWLEDGE: u8 = 3;

/// The named bits of the status.
pub const BUSY: u8 = 1;
pub const DONE: u8 = 2;
pub const REFUSED: u8 = 4;
pub const MOVED: u8 = 8;

/// The one bit that counts in the interrupt and in the mask.
const COUNTING: u8 = 1;

/// Takes the command that stands in a task's window and leaves there what came of it.
pub fn serve_window(
    file: &[u8],
    cells: &mut [u64],
    row: &mut [Record],
    windows: &mut [u8],
    task: usize,
) -> Result<(), Refusal> {
    let mut window = window_at(windows, row.len(), task)?;
    let taken = take_command(file, cells, row, &mut window, task);
    window[COMMAND] = NOTHING;
    if let Err(refusal) = taken {
        window[REFUSAL] = refusal.number();
        raise(&mut window, REFUSED);
    }
    let place = WINDOW_BYTES * task;
    windows[place..][..WINDOW_BYTES].copy_from_slice(&window);
    taken
}

/// Whether a task's interrupt line is up: an interrupt waits and is not masked.
pub fn line_is_up(windows: &[u8], tasks: usize, task: usize) -> Result<bool, Refusal> {
    let window = window_at(windows, tasks, task)?;
    Ok(window[INTERRUPT] & COUNTING == 1 && window[MASK] & COUNTING == 0)
}

/// The window of a task. Tests the windows' length for 18, then the task for 7.
pub fn window_at(windows: &[u8], tasks: usize, task: usize) -> Result<Window, Refusal> {
    if windows.len() % WINDOW_BYTES != 0 || windows.len() / WINDOW_BYTES != tasks {
        return Err(Refusal::Window);
    }
    if task >= tasks {
        return Err(Refusal::Task);
    }
    let place = WINDOW_BYTES * task;
    Ok(std::array::from_fn(|byte| windows[place + byte]))
}

/// Whether a named bit of the status is on.
pub fn has(window: &Window, bit: u8) -> bool {
    window[STATUS] & bit != 0
}

fn take_command(
    file: &[u8],
    cells: &mut [u64],
    row: &mut [Record],
    window: &mut Window,
    task: usize,
) -> Result<(), Refusal> {
    match window[COMMAND] {
        NOTHING => {}
        BEGIN => {
            test_acknowledged(window)?;
            begin(file, row, task, usize::from(window[OPERATION]))?;
            change_status(window, 0, BUSY);
        }
        STEP => note_answer(window, step(file, cells, row, task)?),
        ACKNOWLEDGE => {
            change_status(window, DONE | REFUSED, 0);
            window[INTERRUPT] &= !COUNTING;
        }
        _ => return Err(Refusal::Window),
    }
    Ok(())
}

/// Tests 17.
fn test_acknowledged(window: &Window) -> Result<(), Refusal> {
    match has(window, DONE) {
        true => Err(Refusal::Unacknowledged),
        false => Ok(()),
    }
}

/// A step that is running leaves nothing; one that ended leaves moved and the low byte of its response.
fn note_answer(window: &mut Window, answer: Answer) {
    if let Answer::Ended { response, moved, .. } = answer {
        let moved = if moved { MOVED } else { 0 };
        change_status(window, BUSY | MOVED, moved);
        window[RESPONSE] = response as u8;
        raise(window, DONE);
    }
}

/// Done or refused comes on and raises the interrupt.
fn raise(window: &mut Window, cause: u8) {
    change_status(window, 0, cause);
    window[INTERRUPT] |= COUNTING;
}

/// Some bits of the status go off, then some come on; all others remain.
fn change_status(window: &mut Window, off: u8, on: u8) {
    window[STATUS] = window[STATUS] & !off | on;
}
