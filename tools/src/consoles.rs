//! `drive window`: consoles that work through their windows, beside tasks that call directly; each line with what happened
//! in words.

use drive_object::{line_is_up, serve_window, Refusal, Shape, WINDOW_BYTES};

use crate::lines;
use crate::narrative::{shown, told};
use crate::object::Object;
use crate::refused;
use crate::session::{Event, Run};
use crate::window::{byte_name, row, Window};
use crate::window_lines::{command, Command};

/// The story of an input, or why the table isn't served.
pub fn story(file: &[u8], input: &[u8]) -> Result<String, String> {
    let shape = Object::of(file)?.shape;
    let mut consoles = None;
    let mut lines = Vec::new();
    for line in lines::cut(input) {
        lines.push(format!("> {}", shown(line)));
        let told = serve_line(file, shape, &mut consoles, line);
        lines.extend(told.iter().map(|line| format!("  {line}")));
    }
    lines.push(String::new());
    Ok(lines.join("\n"))
}

/// Serves a line; what happened.
fn serve_line(file: &[u8], shape: Shape, consoles: &mut Option<Consoles>, line: &[u8]) -> Vec<String> {
    match (command(line), consoles.as_mut()) {
        (Some(Command::Bench(lines::Command::Start(tasks))), _) => {
            match Consoles::start(file, shape, tasks) {
                Ok(started) => consoles.insert(started).opening(),
                Err(refusal) => vec![refused::in_words(refusal)],
            }
        }
        (Some(command), Some(consoles)) => consoles.serve(file, command),
        _ => vec![refused::line_in_words()],
    }
}

/// A run, and the windows of its tasks.
struct Consoles {
    run: Run,
    windows: Vec<u8>,
    shape: Shape,
}

impl Consoles {
    /// Starts a run. Start knows nothing of windows; the run gets new ones.
    fn start(file: &[u8], shape: Shape, tasks: usize) -> Result<Consoles, Refusal> {
        Ok(Consoles {
            run: Run::start(file, tasks)?,
            windows: vec![0; WINDOW_BYTES * tasks],
            shape,
        })
    }

    fn opening(&self) -> Vec<String> {
        let windows = format!("windows: {WINDOW_BYTES} bytes for each task, all 0");
        [self.told(&self.run.opening()), vec![windows]].concat()
    }

    fn told(&self, events: &[Event]) -> Vec<String> {
        events.iter().flat_map(|event| told(event, self.shape)).collect()
    }

    /// Serves a line other than `n`: what it did, and then the windows and lines that it concerns.
    fn serve(&mut self, file: &[u8], command: Command) -> Vec<String> {
        match command {
            Command::Bench(command) => {
                let mut events = Vec::new();
                self.run.serve(file, command, &mut events);
                [self.told(&events), self.concerned(command)].concat()
            }
            Command::Write { task, byte, value } => {
                [self.write(task, byte, value), self.shows(task)].concat()
            }
            Command::Call(task) => [self.call(file, task), self.shows(task)].concat(),
            Command::Line(task) => vec![self.line(task)],
        }
    }

    /// The windows that a line of the bench concerns.
    fn concerned(&self, command: lines::Command) -> Vec<String> {
        use lines::Command::{Begin, Finish, Print, Start, Step};
        match command {
            Begin(task, _) | Step(task) | Finish(task) => self.shows(task),
            Print | Start(_) => (0..self.run.row.len())
                .flat_map(|task| self.shows(task))
                .collect(),
        }
    }

    /// A console's write is no call: it is refused here, if there is no such window.
    fn write(&mut self, task: usize, byte: usize, value: u8) -> Vec<String> {
        let told = match self.windows.get_mut(WINDOW_BYTES * task + byte) {
            Some(place) => {
                *place = value;
                format!("console {task} writes {value} to {}", byte_name(byte))
            }
            None => refused::in_words(Refusal::Task),
        };
        vec![told]
    }

    /// The window call with its answer, and what it did.
    fn call(&mut self, file: &[u8], task: usize) -> Vec<String> {
        let (asked, before) = (self.window(task), self.run.point(task));
        let (cells, row) = (&mut self.run.cells, &mut self.run.row);
        let answer = match serve_window(file, cells, row, &mut self.windows, task) {
            Ok(()) => "served".into(),
            Err(refusal) => refused::in_words(refusal),
        };
        let (Some(asked), Some(left)) = (asked, self.window(task)) else {
            return vec![answer];
        };
        let call = format!("window call of task {task}, {}: {answer}", asked.command());
        let mut events = Vec::new();
        self.run.follow(task, &before, left.reply(), &mut events);
        [vec![call], self.told(&events)].concat()
    }

    fn window(&self, task: usize) -> Option<Window> {
        Window::of(&self.windows, task)
    }

    /// What a task's console reads now, and its line; nothing if it has no window.
    fn shows(&self, task: usize) -> Vec<String> {
        match self.window(task) {
            Some(window) => [window.rows(task), vec![self.line(task)]].concat(),
            None => Vec::new(),
        }
    }

    /// Whether a task's interrupt line is up, as the library answers, with interrupt and mask.
    fn line(&self, task: usize) -> String {
        let about = format!("line {task}");
        let says = self.window(task).map(|window| window.interrupt());
        match line_is_up(&self.windows, self.run.row.len(), task) {
            Ok(true) => row(&about, "up", &says.unwrap_or_default()),
            Ok(false) => row(&about, "down", &says.unwrap_or_default()),
            Err(refusal) => row(&about, &refused::in_words(refusal), ""),
        }
    }
}
