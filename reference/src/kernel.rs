//! What the example kernels must print: three tasks over the flag object in turn, one of them a console that works through
//! its window, another stopped for good. The listing comes from the plain book and from steps that are checked against it.

use crate::book::Book;
use crate::ceiling::ceiling;
use crate::configuration::{Call, CallAnswer, Configuration};
use crate::machine::Answer;
use crate::refusal::Refusal;
use crate::reply::moved_words;
use crate::table::Table;
use crate::table_file::TableFile;
use crate::transition::System;
use crate::window::{
    has, line_is_up, serve_window, window_at, Window, ACKNOWLEDGE, BEGIN, BUSY, COMMAND, DONE, MOVED,
    OPERATION, REFUSAL, REFUSED, RESPONSE, STEP, WINDOW_BYTES,
};
use crate::window_twin::direct_call;

const READ: usize = 0;
const SET: usize = 1;
const CLEAR: usize = 2;

/// The operations of each task, in order. Only the task that is stopped sets the flag.
const PROGRAMS: [&[usize]; 3] = [
    &[CLEAR, READ, CLEAR, CLEAR],
    &[SET, SET],
    &[READ, CLEAR, READ, CLEAR],
];

/// The task that works through its window; the others are called directly.
const CONSOLE: usize = 0;

/// The task that is stopped for good in its last operation, as soon as it has its mark in the head.
const STOPPED: usize = 1;

/// The whole listing, or the first rule that was broken.
pub fn listing() -> Result<String, String> {
    let file = TableFile::flag().kept();
    let table = Table::check(file).map_err(refused)?;
    let mut kernel = Kernel::start(file, &table)?;
    kernel.refused_step()?;
    while kernel.turn()? {}
    Ok(kernel.close())
}

fn refused(refusal: Refusal) -> String {
    format!("refused with {}", refusal.number())
}

/// The end of a line about the console.
const BY_WINDOW: &str = ", by its window";

fn ended_line(task: usize, operation: usize, response: u16, moved: bool, steps: u32) -> String {
    let moved = moved_words(moved);
    format!("task {task} operation {operation} answers {response}, {moved}, own steps {steps}")
}

struct Kernel<'a> {
    file: &'a [u8],
    system: System<'a>,
    point: Configuration,
    windows: [u8; WINDOW_BYTES * PROGRAMS.len()],
    /// The own steps of the console's operation, which it counts itself.
    console_steps: u32,
    book: Book,
    /// How many operations of each task have ended.
    ended: [usize; 3],
    stopped: bool,
    printed: String,
}

impl<'a> Kernel<'a> {
    fn start(file: &'a [u8], table: &'a Table<'a>) -> Result<Kernel<'a>, String> {
        let tasks = PROGRAMS.len();
        let point = Configuration::started(table, tasks).map_err(refused)?;
        let most = ceiling(tasks).map_err(refused)?;
        let (states, operations) = (table.states, table.operations);
        Ok(Kernel {
            file,
            system: System::of_machine(table),
            point,
            windows: [0; WINDOW_BYTES * PROGRAMS.len()],
            console_steps: 0,
            book: Book::new(table, tasks),
            ended: [0; 3],
            stopped: false,
            printed: format!("{tasks} tasks, {states} states, {operations} operations, ceiling {most}\n"),
        })
    }

    /// A turn of every task that is neither stopped nor done; no, if there is none.
    fn turn(&mut self) -> Result<bool, String> {
        let mut any = false;
        for task in 0..PROGRAMS.len() {
            let stands_still = task == STOPPED && self.stopped;
            if !stands_still && self.ended[task] < PROGRAMS[task].len() {
                self.turn_of(task)?;
                any = true;
            }
        }
        Ok(any)
    }

    fn turn_of(&mut self, task: usize) -> Result<(), String> {
        let operation = PROGRAMS[task][self.ended[task]];
        match task {
            CONSOLE => self.console_turn(operation),
            _ => self.direct_turn(task, operation),
        }
    }

    /// Begins the operation if the task is idle, and makes one step.
    fn direct_turn(&mut self, task: usize, operation: usize) -> Result<(), String> {
        if !self.point.record(task).is_pending() {
            self.make(Call::Begin { task, operation })?.map_err(refused)?;
        }
        if let Some(Answer::Ended {
            response,
            moved,
            steps,
        }) = self.make(Call::Step { task })?.map_err(refused)?
        {
            self.ended[task] += 1;
            self.print(ended_line(task, operation, response, moved, steps));
        }
        let in_last = self.ended[task] + 1 == PROGRAMS[task].len();
        if task == STOPPED && in_last && self.point.is_linked_to_head(task) {
            self.stopped = true;
            let (steps, head) = (self.point.record(task).steps, self.point.head());
            self.print(format!(
                "task {task} operation {operation} stopped, own steps {steps}, head {head:016x}"
            ));
        }
        Ok(())
    }

    /// Begins the operation if the window isn't busy, and makes one step, both by the window.
    fn console_turn(&mut self, operation: usize) -> Result<(), String> {
        if !has(&self.window(), BUSY) {
            self.write(OPERATION, operation as u8);
            self.command(BEGIN)?.map_err(refused)?;
            self.console_steps = 0;
        }
        self.command(STEP)?.map_err(refused)?;
        self.console_steps += 1;
        let window = self.window();
        if has(&window, DONE) {
            self.ended[CONSOLE] += 1;
            let (response, moved) = (u16::from(window[RESPONSE]), has(&window, MOVED));
            let line = ended_line(CONSOLE, operation, response, moved, self.console_steps);
            self.print(line + BY_WINDOW);
            self.acknowledge()?;
        }
        Ok(())
    }

    /// A step that the console asks for before it has begun anything.
    fn refused_step(&mut self) -> Result<(), String> {
        let answer = self.command(STEP)?;
        let window = self.window();
        if answer != Err(Refusal::Idle) || !has(&window, REFUSED) {
            return Err(format!("a step with none pending answers {answer:?}"));
        }
        let number = window[REFUSAL];
        self.print(format!("task {CONSOLE} step refused with {number}{BY_WINDOW}"));
        self.acknowledge()
    }

    /// The line is up before an acknowledge and down after it.
    fn acknowledge(&mut self) -> Result<(), String> {
        let before = self.line()?;
        self.command(ACKNOWLEDGE)?.map_err(refused)?;
        match (before, self.line()?) {
            (true, false) => Ok(()),
            other => Err(format!("the line before and after an acknowledge: {other:?}")),
        }
    }

    fn line(&self) -> Result<bool, String> {
        line_is_up(&self.windows, PROGRAMS.len(), CONSOLE).map_err(refused)
    }

    fn window(&self) -> Window {
        window_at(&self.windows, PROGRAMS.len(), CONSOLE).expect("the console has a window")
    }

    /// The console writes a byte of its window.
    fn write(&mut self, byte: usize, content: u8) {
        self.windows[WINDOW_BYTES * CONSOLE + byte] = content;
    }

    /// The console writes a command, and the kernel makes the window call. The begin or step in it is checked as a direct
    /// one, which must leave the same.
    fn command(&mut self, command: u8) -> Result<Result<(), Refusal>, String> {
        self.write(COMMAND, command);
        let call = direct_call(&self.windows, PROGRAMS.len(), CONSOLE);
        let mut served = self.point;
        let (cells, row) = served.parts_mut();
        let answer = serve_window(self.file, cells, row, &mut self.windows, CONSOLE);
        if let Some(call) = call {
            let direct = self.make(call)?.map(|_| ());
            if direct != answer {
                return Err(format!("{answer:?} by the window, {direct:?} by {call:?}"));
            }
        }
        match served == self.point {
            true => Ok(answer),
            false => Err(format!(
                "command {command} leaves another point than a direct call"
            )),
        }
    }

    fn make(&mut self, call: Call) -> Result<CallAnswer, String> {
        let (after, answer) = self.system.make_checked(&self.point, call, &mut self.book)?;
        self.point = after;
        Ok(answer)
    }

    fn print(&mut self, line: String) {
        self.printed += &line;
        self.printed.push('\n');
    }

    /// The cells, and how often the book's order has the operation that was stopped.
    fn close(mut self) -> String {
        let cells: String = (self.point.cells().iter())
            .map(|cell| format!(" {cell:016x}"))
            .collect();
        self.print(format!("cells{cells}"));
        let entered = self
            .book
            .order
            .iter()
            .filter(|begun| begun.task == STOPPED)
            .count();
        let applied = entered - self.ended[STOPPED];
        self.print(format!("stopped operation applied: {applied}"));
        self.printed
    }
}

#[cfg(test)]
mod tests {
    use super::*;

    #[test]
    fn all_operations_end_but_the_stopped_one() {
        let printed = listing().unwrap();
        let ended = printed.lines().filter(|line| line.contains(" answers ")).count();
        let stopped = printed.lines().filter(|line| line.contains(" stopped, ")).count();
        assert_eq!((ended, stopped), (9, 1));
        assert!(printed.contains("\ntask 1 operation 1 answers 0, moved, own steps 24\n"));
        assert!(printed.contains("\ntask 2 operation 0 answers 0, not moved, own steps 1\n"));
        assert!(printed.ends_with("stopped operation applied: 1\n"));
    }

    #[test]
    fn the_console_works_through_its_window() {
        let printed = listing().unwrap();
        let lines = Vec::from_iter(printed.lines());
        assert_eq!(lines[1], "task 0 step refused with 10, by its window");
        for line in lines {
            assert_eq!(
                line.ends_with(", by its window"),
                line.starts_with("task 0 "),
                "{line}"
            );
        }
    }
}
