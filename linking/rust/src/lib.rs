//! The drive object for kernels in Rust: a table of states and operations that up to eight tasks share through 64-bit
//! cells; the windows, eight bytes a task, through which consoles begin and step; the writer of the one file of an object;
//! the question whether the jack console can force a target state; and the ring desk, which tells what ring owns a chainage
//! and writes the table of a drive. `docs/LINKING.md` is the page about linking; table files, cells, windows and refusals
//! stand in `docs/FORMATS.md`, runs and steps in `docs/RUNS.md`.
//!
//! The borrows say most of what a caller owes: what is lent is valid for the whole call, does not overlap, and nobody else
//! writes it meanwhile. What is left to the kernel:
//!
//! - Begin, step and [`serve_window`] are called with switching closed: one call ends before the next one starts.
//! - Handlers that run on the caller's stack leave the 128 bytes below the stack pointer alone.
//! - Within a run (an accepted [`start`] and the begins, steps and window calls after it) nothing but the calls writes
//!   cells, row or table, and every call is lent the same ones. A kernel may instead keep each record with its task: it
//!   takes them out of the row after start, and makes every call for a task with the task's record and the row's number of
//!   records. [`serve_window`] takes the record from the row. A console may write its bytes of its window between calls.
//!
//! Nothing is asked of task, operation, state, moves, chainage, any length or the bytes of a window or of targets: a call
//! that can't be served is refused with the first cause that holds, and then everything lent is left as it was, with one
//! exception: a refused command writes bytes 1, 2, 4 and 5 of its window. No call panics, allocates or keeps a reference.
#![no_std]
#![warn(missing_docs)]

mod answer;
mod foreign;

pub use answer::{Force, Progress, Refusal, Shape};

/// The most tasks of a run. It has one cell more than tasks: cell 0 is the head, cell i + 1 the announcement of task i.
pub const MOST_TASKS: usize = 8;

/// The longest table file in bytes.
pub const LONGEST_FILE: usize = 20_496;

/// The longest file in bytes that [`write_canonical`] writes, that of 256 states and 32 operations.
pub const LONGEST_CANONICAL: usize = 16_400;

/// The most moves that [`force`] is asked for, those of both sides together.
pub const MOST_MOVES: usize = 4;

/// The most rings of a list.
pub const MOST_RINGS: usize = 255;

/// The words of a ring in a list: its length, and its kind, [`ORDINARY`] or [`KEY`].
pub const RING_WORDS: usize = 2;

/// The kind of an ordinary ring, which owns its start and not its end.
pub const ORDINARY: u32 = 0;

/// The kind of a key ring, which owns both.
pub const KEY: u32 = 1;

/// The longest table file of a drive in bytes, that of 255 rings.
pub const LONGEST_RING_TABLE: usize = 1_552;

/// The bytes of a window. The windows of all tasks are lent as one: that of task t begins at byte 8 × t. A console writes
/// bytes 0, 1 and 6 of its own window, and [`serve_window`] bytes 1 to 5.
///
/// | byte | name | holds |
/// |---|---|---|
/// | 0 | operation | the operation that a begin command begins |
/// | 1 | command | 1 begin, 2 step, 3 acknowledge, 0 nothing; [`serve_window`] takes a command once, and leaves 0 |
/// | 2 | status | the four bits below |
/// | 3 | response | that of the last operation that a step command ended |
/// | 4 | refusal | the number of the last refused command, 0 before the first |
/// | 5 | interrupt | bit 0 is 1 while an interrupt waits: from done or refused to the acknowledge |
/// | 6 | mask | bit 0 is 1 to mask the interrupt, and changes nothing but the line |
/// | 7 | | nothing; it is never written |
///
/// | bit of status | name | is 1 |
/// |---|---|---|
/// | 0 | busy | from an accepted begin command to the step command that ends the operation |
/// | 1 | done | from such a step command to the acknowledge |
/// | 2 | refused | from a refused command to the acknowledge |
/// | 3 | moved | if the last operation that was ended so moved the state |
///
/// Bits 4 to 7 of status and 1 to 7 of interrupt have no name and stay as they are; those of mask don't count.
pub const WINDOW_BYTES: usize = 8;

/// The private record of a task, whose number is its place in the row. [`start`] fills it; only the calls write it. The
/// forms stand in `docs/RECORDS.md`.
#[repr(C)]
#[derive(Clone, Copy, Debug, Default, PartialEq, Eq)]
pub struct Task {
    /// A saved head.
    pub head: u64,
    /// A saved announcement.
    pub announcement: u64,
    /// An operation that is to be applied, or the own response and whether the state moved.
    pub payload: u32,
    /// The own steps since begin.
    pub steps: u32,
    /// The own operation.
    pub operation: u16,
    /// The task that is helped first.
    pub priority: u16,
    /// What the next step does; 0 is idle.
    pub phase: u32,
}

const _: () = assert!(size_of::<Task>() == 32 && align_of::<Task>() == 8);

/// Checks a table. Tests 1, 2, 3, then 4 on all entries.
///
/// Writes nothing. Its cost grows with states times operations.
#[inline]
pub fn check(file: &[u8]) -> Result<Shape, Refusal> {
    answer::shape(foreign::check(file))
}

/// Writes the one file of a table's object; the length of the file in bytes. Tests 1, 2, 3, then 4 on all entries, also
/// those of states that can't be reached, then 16.
///
/// The states that can be reached from the start state are numbered in the order of first meeting: the start state is 0,
/// states are taken in their new order, operations from 0 up; the others are dropped. The file has the start state 0, no
/// text, and 2 bytes for each of its states and operations and 16 more, so it is at most as long as the table. Two tables
/// give equal files exactly if their states that can be reached become the same by renumbering, start to start, with equally
/// many operations and equal responses.
///
/// Writes the file at the beginning of the room, which may hold anything before, and leaves the rest of it. Its cost grows
/// with states times operations.
#[inline]
pub fn write_canonical(file: &[u8], room: &mut [u8]) -> Result<u32, Refusal> {
    answer::high_number(foreign::write_canonical(file, room))
}

/// Whether the jack console can force a target, and with which operation first. Tests 1, 2, 3, then 4 on all entries, also
/// those of states that can't be reached, then 19.
///
/// From `state`, the jack console and the surface link take turns, one whole operation each, the jack console first, and make
/// at most `moves` operations, both sides together, 1 to [`MOST_MOVES`]. `targets` has a byte for each state, 1 for a target,
/// else 0. The answer is a yes if the jack console can choose its operations so that whatever the link chooses, the state is
/// a target at the outset or after some operation of either side. The operation of a yes is the lowest that wins, which need
/// not be the one that wins soonest.
///
/// Writes nothing. Its cost grows with states times operations and with the turns that may be made: with 32 operations and 4
/// moves these are up to 1,082,401.
#[inline]
pub fn force(file: &[u8], state: usize, targets: &[u8], moves: usize) -> Result<Force, Refusal> {
    answer::force(foreign::force(file, state, targets, moves))
}

/// Starts a run. Tests 1, 2, 3, 4 on all entries, 5, 6.
///
/// Writes every cell, with the image of the start state, and every record, with an idle task. They may hold anything
/// before. Its cost grows with states times operations.
#[inline]
pub fn start(file: &[u8], cells: &mut [u64], row: &mut [Task]) -> Result<(), Refusal> {
    answer::accepted(foreign::start(file, cells, row)).map(|_| ())
}

/// Begins an operation for a task. Tests 1, 2, 3, 5, 7, 8, then 4 on all entries, also those of other operations and of
/// states that can't be reached, then 11, 9.
///
/// Writes the task's record, and leaves the row's other records. Its cost grows with states times operations, and it takes
/// over 1,400 bytes of stack: two arrays for the states that can be reached.
#[inline]
pub fn begin(file: &[u8], row: &mut [Task], task: usize, operation: usize) -> Result<(), Refusal> {
    answer::accepted(foreign::begin(file, row, task, operation)).map(|_| ())
}

/// Makes one step for a task: one read, write or compare-and-swap on one cell. Tests 1, 2, 3, 5, 6, 7, 11, 10, 12,
/// then 4 on the one entry that it uses, if it uses one.
///
/// Writes the task's record and at most the one touched cell, and leaves every other record and cell. Its cost is
/// bounded for all tables and numbers of tasks.
#[inline]
pub fn step(file: &[u8], cells: &mut [u64], row: &mut [Task], task: usize) -> Result<Progress, Refusal> {
    answer::progress(foreign::step(file, cells, row, task))
}

/// Begins an operation for a task whose record is lent: [`begin`] for a row of `tasks` records that has it at the task's
/// place. The tests are the same.
///
/// Writes the record.
#[inline]
pub fn begin_record(
    file: &[u8],
    tasks: usize,
    task: usize,
    operation: usize,
    own: &mut Task,
) -> Result<(), Refusal> {
    answer::accepted(foreign::begin_record(file, tasks, task, operation, own)).map(|_| ())
}

/// Makes one step for a task whose record is lent: [`step`] for a row of `tasks` records that has it at the task's place.
/// The tests and the answer are the same.
///
/// Writes the record and at most the one touched cell.
#[inline]
pub fn step_record(
    file: &[u8],
    cells: &mut [u64],
    tasks: usize,
    task: usize,
    own: &mut Task,
) -> Result<Progress, Refusal> {
    answer::progress(foreign::step_record(file, cells, tasks, task, own))
}

/// Takes the command that stands in a task's window: it begins the operation in byte 0 for the task, makes one step for it,
/// or acknowledges. Tests 18 on the windows' length, which is [`WINDOW_BYTES`] for each record of the row, then 7; refused
/// by one of these no byte changes. Command 0 is accepted, nothing more is tested and nothing is written. Else it tests 18
/// on the command, then 17 if it is a begin while done is 1; then a begin tests what [`begin`] does, a step what [`step`]
/// does, in their orders, and an acknowledge nothing.
///
/// Writes cells and row as [`begin`] or [`step`] would, and of the windows that of the task alone:
///
/// - by every command: byte 1 becomes 0;
/// - a begin: busy 1;
/// - a step, running: nothing else;
/// - a step that ended the operation: busy 0, done 1, moved 0 or 1, the low byte of the response, interrupt 1;
/// - an acknowledge: done 0, refused 0, interrupt 0;
/// - a refused command: refused 1, its number in byte 4, interrupt 1; no cell and no record.
///
/// Its cost is little more than that of the call that it makes.
///
/// A console whose window is all 0 at the start of the run, and that writes only bytes 0, 1 and 6 of it, nobody else writing
/// there or calling for its task, reads in it what [`begin`] and [`step`] in the same places would answer, but for the count
/// of own steps, 17 and 18. [`start`] does not touch windows.
#[inline]
pub fn serve_window(
    file: &[u8],
    cells: &mut [u64],
    row: &mut [Task],
    windows: &mut [u8],
    task: usize,
) -> Result<(), Refusal> {
    answer::accepted(foreign::serve_window(file, cells, row, windows, task)).map(|_| ())
}

/// Whether the interrupt line of a task's window is up: bit 0 of byte 5 is 1, and bit 0 of byte 6 is 0. Tests 18 on the
/// windows' length, which is [`WINDOW_BYTES`] for each of `tasks` tasks, then 7.
///
/// Writes nothing.
#[inline]
pub fn line_is_up(windows: &[u8], tasks: usize, task: usize) -> Result<bool, Refusal> {
    answer::line(foreign::line_is_up(windows, tasks, task))
}

/// The ceiling of own steps of an operation, whatever the other tasks do: 1,000 × n × n × n for n tasks, 1 to 8. Tests 5 on
/// the number of tasks.
#[inline]
pub fn ceiling(tasks: usize) -> Result<u32, Refusal> {
    answer::high_number(foreign::ceiling(tasks))
}

/// The number, from 1, of the ring that owns a chainage in millimetres. Tests 14 on the whole list, then 15.
///
/// `rings` is a list of 1 to 255 rings, two words for each: its length in millimetres, 1 to 20,000, and its kind, 0 ordinary
/// or 1 key. Ring 1 begins at chainage 0, each other one at the end of the one before. An ordinary ring owns its start and
/// not its end, a key ring owns both; if two own the chainage, the lower number is given.
///
/// Writes nothing. Its cost grows with the number of rings.
#[inline]
pub fn owner(rings: &[u32], chainage: u64) -> Result<u16, Refusal> {
    answer::low_number(foreign::owner(rings, chainage))
}

/// Writes the table file of the drive with these rings, a list as for [`owner`]; the length of the file in bytes. Tests 14
/// on the whole list, then 16.
///
/// State k is k rings built, and the start state is 0; operation 0 reads, 1 builds a ring, 2 takes one out; the response is
/// k before the operation. The file has 6 bytes for each ring and 22 more.
///
/// Writes the file at the beginning of the room, which may hold anything before, and leaves the rest of it. Its cost grows
/// with the number of rings.
#[inline]
pub fn write_ring_table(rings: &[u32], room: &mut [u8]) -> Result<u32, Refusal> {
    answer::high_number(foreign::write_ring_table(rings, room))
}
