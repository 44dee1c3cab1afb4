//! A kernel in Rust over the drive object: three tasks take turns, one step to a turn, over the flag object. Task 0 is a
//! console, which writes commands into its window and reads there what came of them. Task 1 is stopped for good inside an
//! operation, with its mark in the head; a lock would be held there for ever. The others end all of their operations all
//! the same.
//!
//! usage: kernel TABLE_FILE

use std::process::ExitCode;

use drive_object::{begin, ceiling, check, line_is_up, owner, serve_window, start, step, write_ring_table};
use drive_object::{Progress, Refusal, Task, KEY, LONGEST_RING_TABLE, WINDOW_BYTES};

const TASKS: usize = 3;

/// The flag object's operations: the response is the old state.
const READ: usize = 0;
const SET: usize = 1;
const CLEAR: usize = 2;

/// The operations of each task, in order. Only the task that is stopped sets the flag.
const PROGRAMS: [&[usize]; TASKS] = [
    &[CLEAR, READ, CLEAR, CLEAR],
    &[SET, SET],
    &[READ, CLEAR, READ, CLEAR],
];

/// The task that works through its window, and calls nothing.
const CONSOLE: usize = 0;

/// The bytes of the console's window that it uses.
const OPERATION: usize = CONSOLE * WINDOW_BYTES;
const COMMAND: usize = OPERATION + 1;
const STATUS: usize = OPERATION + 2;
const RESPONSE: usize = OPERATION + 3;
const REFUSAL: usize = OPERATION + 4;

/// The commands.
const BEGIN: u8 = 1;
const STEP: u8 = 2;
const ACKNOWLEDGE: u8 = 3;

/// The bits of the status.
const BUSY: u8 = 1 << 0;
const DONE: u8 = 1 << 1;
const REFUSED: u8 = 1 << 2;
const MOVED: u8 = 1 << 3;

/// The task that is stopped in its last operation, as soon as it has its mark in the head.
const STOPPED: usize = 1;

/// What the library is lent, and what the kernel knows of its tasks.
struct Kernel {
    file: Vec<u8>,
    cells: [u64; TASKS + 1],
    row: [Task; TASKS],
    windows: [u8; TASKS * WINDOW_BYTES],
    ceiling: u32,
    ended: [usize; TASKS],
    /// Of a task with an operation pending.
    own_steps: [Option<u32>; TASKS],
    stopped: bool,
    raised: u64,
    lowered: u64,
}

fn main() -> ExitCode {
    match run() {
        Ok(()) => ExitCode::SUCCESS,
        Err(message) => {
            eprintln!("kernel: {message}");
            ExitCode::FAILURE
        }
    }
}

fn run() -> Result<(), String> {
    let path = std::env::args().nth(1).ok_or("usage: kernel TABLE_FILE")?;
    let file = std::fs::read(&path).map_err(|error| format!("{path}: {error}"))?;
    let mut kernel = Kernel::start(file)?;
    kernel.step_too_early()?;
    while kernel.turn()? {}
    kernel.close()
}

fn refused(refusal: Refusal) -> String {
    format!("refused with {}: {refusal}", refusal.number())
}

fn expect(fact: bool, what: &str) -> Result<(), String> {
    match fact {
        true => Ok(()),
        false => Err(what.to_string()),
    }
}

/// The ring desk writes the flag too: it is the table of a drive of one ring, which build sets and take out clears.
fn expect_drive_of_one_ring(file: &[u8]) -> Result<(), String> {
    const LENGTH: u32 = 1_500;
    let rings = [LENGTH, KEY];
    let mut room = [0; LONGEST_RING_TABLE];
    let written = write_ring_table(&rings, &mut room).map_err(refused)?;
    expect(
        &room[..written as usize] == file,
        "the table is not that of one ring",
    )?;
    let owner = owner(&rings, u64::from(LENGTH)).map_err(refused)?;
    expect(owner == 1, "a key ring does not own its end")
}

/// The state that an operation of the flag leads to.
fn next_state(operation: usize, state: u16) -> u16 {
    match operation {
        SET => 1,
        CLEAR => 0,
        _ => state,
    }
}

impl Kernel {
    fn start(file: Vec<u8>) -> Result<Kernel, String> {
        let shape = check(&file).map_err(refused)?;
        expect_drive_of_one_ring(&file)?;
        let ceiling = ceiling(TASKS).map_err(refused)?;
        let mut cells = [0; TASKS + 1];
        let mut row = [Task::default(); TASKS];
        start(&file, &mut cells, &mut row).map_err(refused)?;
        let (states, operations) = (shape.states, shape.operations);
        println!("{TASKS} tasks, {states} states, {operations} operations, ceiling {ceiling}");
        Ok(Kernel {
            file,
            cells,
            row,
            windows: [0; TASKS * WINDOW_BYTES],
            ceiling,
            ended: [0; TASKS],
            own_steps: [None; TASKS],
            stopped: false,
            raised: 0,
            lowered: 0,
        })
    }

    /// A turn of every task that is neither stopped nor done; no, if there is none.
    fn turn(&mut self) -> Result<bool, String> {
        let mut any = false;
        for (task, program) in PROGRAMS.iter().enumerate() {
            let stands_still = task == STOPPED && self.stopped;
            if stands_still || self.ended[task] == program.len() {
                continue;
            }
            any = true;
            match task {
                CONSOLE => self.turn_of_console(program)?,
                _ => self.turn_of(task, program)?,
            }
        }
        Ok(any)
    }

    /// Begins the task's next operation if it is idle, and makes one step. A real kernel closes switching around both.
    fn turn_of(&mut self, task: usize, program: &[usize]) -> Result<(), String> {
        let operation = program[self.ended[task]];
        if self.own_steps[task].is_none() {
            begin(&self.file, &mut self.row, task, operation).map_err(refused)?;
        }
        let progress = step(&self.file, &mut self.cells, &mut self.row, task).map_err(refused)?;
        let own_steps = self.count_step(task)?;
        if let Progress::Ended {
            response,
            moved,
            steps,
        } = progress
        {
            expect(
                steps == own_steps,
                "the answered count is not the number of steps",
            )?;
            let said = self.note_end(task, operation, response, moved)?;
            println!("{said}, own steps {steps}");
        }
        let in_last = self.ended[task] + 1 == program.len();
        let marked = self.cells[0] >> task & 1 == 1;
        if task == STOPPED && in_last && marked {
            self.stopped = true;
            let head = self.cells[0];
            println!("task {task} operation {operation} stopped, own steps {own_steps}, head {head:016x}");
        }
        Ok(())
    }

    /// The own steps of the task's operation, this one counted.
    fn count_step(&mut self, task: usize) -> Result<u32, String> {
        let own_steps = self.own_steps[task].unwrap_or(0) + 1;
        self.own_steps[task] = Some(own_steps);
        expect(own_steps <= self.ceiling, "an operation passes the ceiling")?;
        Ok(own_steps)
    }

    /// Notes an ended operation; what is said of it. The flag is raised by a set that answers 0 and lowered by a clear that
    /// answers 1.
    fn note_end(
        &mut self,
        task: usize,
        operation: usize,
        response: u16,
        moved: bool,
    ) -> Result<String, String> {
        let right = moved == (next_state(operation, response) != response);
        expect(right, "the answer is wrong about whether the flag moved")?;
        self.own_steps[task] = None;
        self.ended[task] += 1;
        self.raised += u64::from(operation == SET && response == 0);
        self.lowered += u64::from(operation == CLEAR && response == 1);
        let moved = if moved { "moved" } else { "not moved" };
        Ok(format!(
            "task {task} operation {operation} answers {response}, {moved}"
        ))
    }

    /// The console asks for a step before it has begun anything, and reads in its window why that is refused.
    fn step_too_early(&mut self) -> Result<(), String> {
        let answer = self.command(STEP).map_or_else(Refusal::number, |()| 0);
        let number = self.windows[REFUSAL];
        expect(answer == number, "the window has another refusal")?;
        let said = self.windows[STATUS] & REFUSED != 0;
        expect(said, "the window does not say that a command was refused")?;
        println!("task {CONSOLE} step refused with {number}, by its window");
        self.acknowledge()
    }

    /// A turn of the console, which sees its window alone. That has no byte for its steps, so it counts them.
    fn turn_of_console(&mut self, program: &[usize]) -> Result<(), String> {
        let operation = program[self.ended[CONSOLE]];
        if self.windows[STATUS] & BUSY == 0 {
            self.windows[OPERATION] = operation as u8;
            self.command(BEGIN).map_err(refused)?;
        }
        self.command(STEP).map_err(refused)?;
        let own_steps = self.count_step(CONSOLE)?;
        if self.windows[STATUS] & DONE != 0 {
            let moved = self.windows[STATUS] & MOVED != 0;
            let response = u16::from(self.windows[RESPONSE]);
            let said = self.note_end(CONSOLE, operation, response, moved)?;
            println!("{said}, own steps {own_steps}, by its window");
            self.acknowledge()?;
        }
        Ok(())
    }

    /// The console finds the line up, and after its acknowledge down.
    fn acknowledge(&mut self) -> Result<(), String> {
        expect(self.line_is_up()?, "the line is down while an interrupt waits")?;
        self.command(ACKNOWLEDGE).map_err(refused)?;
        expect(!self.line_is_up()?, "the line is up after the acknowledge")
    }

    /// The console writes a command, and the kernel makes the window call, with switching closed.
    fn command(&mut self, number: u8) -> Result<(), Refusal> {
        self.windows[COMMAND] = number;
        serve_window(
            &self.file,
            &mut self.cells,
            &mut self.row,
            &mut self.windows,
            CONSOLE,
        )
    }

    fn line_is_up(&self) -> Result<bool, String> {
        line_is_up(&self.windows, TASKS, CONSOLE).map_err(refused)
    }

    /// How often the stopped set was applied: the flag was raised as often as it was lowered, and once more if it is
    /// up.
    fn close(&self) -> Result<(), String> {
        expect(self.stopped, "no task was stopped")?;
        let state = self.cells[0] >> 8 & 0xff;
        let applied = (self.lowered + state).checked_sub(self.raised);
        let applied = applied.ok_or("the flag was raised more often than lowered")?;
        expect(applied <= 1, "the stopped operation is applied more than once")?;
        let cells: String = self.cells.iter().map(|cell| format!(" {cell:016x}")).collect();
        println!("cells{cells}");
        println!("stopped operation applied: {applied}");
        Ok(())
    }
}
