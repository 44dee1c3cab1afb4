//! Consoles at their windows as the second program serves them, and so what `drive window` must print.

use crate::window_words::{call_words, line_row, refused, window_rows, write_words};
use reference::cells::Head;
use reference::file_calls;
use reference::machine::{perform, plan, Answer};
use reference::record::Record;
use reference::refusal::Refusal;
use reference::table::Table;
use reference::trace_event::{Event, Step};
use reference::window::{line_is_up, serve_window};

/// What a line asks for.
enum Line {
    Start(usize),
    Begin(usize, usize),
    Step(usize),
    Drive(usize),
    Print,
    Write(usize, usize, u8),
    Call(usize),
    Ask(usize),
}

fn parse(line: &str) -> Option<Line> {
    let mut words = line.split(' ');
    let first = words.next()?;
    let numbers: Option<Vec<usize>> = words.map(number).collect();
    match (first, numbers?.as_slice()) {
        _ if line.len() > 64 => None,
        ("n", [tasks]) => Some(Line::Start(*tasks)),
        ("b", [task, operation]) => Some(Line::Begin(*task, *operation)),
        ("s", [task]) => Some(Line::Step(*task)),
        ("d", [task]) => Some(Line::Drive(*task)),
        ("m", []) => Some(Line::Print),
        ("w", [task, byte @ 0..=7, value @ 0..=255]) => Some(Line::Write(*task, *byte, *value as u8)),
        ("c", [task]) => Some(Line::Call(*task)),
        ("l", [task]) => Some(Line::Ask(*task)),
        _ => None,
    }
}

fn number(word: &str) -> Option<usize> {
    let digits = word.chars().all(|c| c.is_ascii_digit());
    let short = matches!(word.len(), 1..=3);
    (digits && short).then(|| word.parse().expect("a number"))
}

/// A run that the second program makes, and the windows of its tasks.
#[derive(Clone)]
struct Run<'a> {
    file: &'a [u8],
    table: Table<'a>,
    cells: Vec<u64>,
    row: Vec<Record>,
    windows: Vec<u8>,
}

impl<'a> Run<'a> {
    fn start(file: &'a [u8], table: Table<'a>, tasks: usize) -> Result<Run<'a>, Refusal> {
        let (mut cells, mut row) = (vec![0; tasks + 1], vec![Record::default(); tasks]);
        file_calls::start(file, &mut cells, &mut row)?;
        let windows = vec![0; 8 * tasks];
        Ok(Run {
            file,
            table,
            cells,
            row,
            windows,
        })
    }

    fn opening(&self) -> Vec<String> {
        let started = Event::Started {
            tasks: self.row.len(),
            states: self.table.states,
            operations: self.table.operations,
            state: self.table.start,
        };
        let windows = "windows: 8 bytes for each task, all 0".to_string();
        [texts(&[started, self.at_rest()]), vec![windows]].concat()
    }

    fn at_rest(&self) -> Event {
        let state = Head::decode(self.cells[0]).state;
        Event::AtRest { state }
    }

    fn rests(&self) -> bool {
        let changes = |record: &Record| self.table.is_changing(usize::from(record.operation));
        !self
            .row
            .iter()
            .any(|record| record.is_pending() && changes(record))
    }

    fn begin(&mut self, task: usize, operation: usize) -> Result<Vec<Event>, Refusal> {
        file_calls::begin(self.file, &mut self.row, task, operation)?;
        let changing = self.table.is_changing(operation);
        Ok(vec![Event::Begun {
            task,
            operation,
            changing,
        }])
    }

    fn step(&mut self, task: usize) -> Result<Vec<Event>, Refusal> {
        let mut before = self.clone();
        let answer = file_calls::step(self.file, &mut self.cells, &mut self.row, task)?;
        let rested = before.rests();
        let mut events = vec![Event::Stepped(before.next_step(task))];
        if let Answer::Ended {
            response,
            moved,
            steps,
        } = answer
        {
            let operation = before.row[task].operation;
            events.push(Event::Ended {
                task,
                operation,
                response,
                moved,
                steps,
            });
            if !rested && self.rests() {
                events.push(self.at_rest());
            }
        }
        Ok(events)
    }

    /// A pending task's next step, as its access shows it.
    fn next_step(&mut self, task: usize) -> Step {
        let record = self.row[task];
        let access = plan(&self.table, task, &record);
        let before = self.cells[access.cell];
        Step {
            task,
            number: record.steps + 1,
            phase: record.known_phase(),
            access,
            outcome: perform(&mut self.cells, access),
            before,
            after: self.cells[access.cell],
        }
    }

    fn drive(&mut self, task: usize) -> Result<Vec<Event>, Refusal> {
        let mut events = self.step(task)?;
        while self.row[task].is_pending() {
            events.extend(self.step(task)?);
        }
        Ok(events)
    }

    fn serve(&mut self, line: Line) -> Vec<String> {
        match line {
            Line::Begin(task, operation) => {
                let begun = self.begin(task, operation);
                self.told(task, begun)
            }
            Line::Step(task) => {
                let stepped = self.step(task);
                self.told(task, stepped)
            }
            Line::Drive(task) => {
                let driven = self.drive(task);
                self.told(task, driven)
            }
            Line::Print | Line::Start(_) => {
                let windows = (0..self.row.len()).flat_map(|task| self.shows(task));
                let cells = texts(&[Event::Cells(self.cells.clone())]);
                cells.into_iter().chain(windows).collect()
            }
            Line::Write(task, byte, value) => self.write(task, byte, value),
            Line::Call(task) => self.call(task),
            Line::Ask(task) => vec![self.line(task)],
        }
    }

    /// A direct call of a task.
    fn told(&self, task: usize, made: Result<Vec<Event>, Refusal>) -> Vec<String> {
        let texts = match made {
            Ok(events) => texts(&events),
            Err(refusal) => vec![refused(refusal)],
        };
        [texts, self.shows(task)].concat()
    }

    fn write(&mut self, task: usize, byte: usize, value: u8) -> Vec<String> {
        if task >= self.row.len() {
            return vec![refused(Refusal::Task)];
        }
        self.windows[8 * task + byte] = value;
        [vec![write_words(task, byte, value)], self.shows(task)].concat()
    }

    /// A window call. A twin makes the direct call in its place, which tells what happens.
    fn call(&mut self, task: usize) -> Vec<String> {
        let mut twin = self.clone();
        let (cells, row) = (&mut self.cells, &mut self.row);
        let answer = serve_window(self.file, cells, row, &mut self.windows, task);
        let Some(window) = twin.windows.chunks(8).nth(task) else {
            return vec![refused(answer.expect_err("there is no window"))];
        };
        let (command, operation) = (window[1], usize::from(window[0]));
        let events = match (command, answer) {
            (1, Ok(())) => twin.begin(task, operation),
            (2, Ok(())) => twin.step(task),
            _ => Ok(Vec::new()),
        };
        assert_eq!((&self.cells, &self.row), (&twin.cells, &twin.row));
        let events = texts(&events.expect("the window call was served"));
        [vec![call_words(task, command, answer)], events, self.shows(task)].concat()
    }

    /// A task's window and its line.
    fn shows(&self, task: usize) -> Vec<String> {
        match self.windows.chunks(8).nth(task) {
            Some(window) => [window_rows(window, task), vec![self.line(task)]].concat(),
            None => Vec::new(),
        }
    }

    fn line(&self, task: usize) -> String {
        match line_is_up(&self.windows, self.row.len(), task) {
            Ok(up) => line_row(up, &self.windows[8 * task..], task),
            Err(refusal) => format!("{:8}  {}", format!("line {task}"), refused(refusal)),
        }
    }
}

fn texts(events: &[Event]) -> Vec<String> {
    events.iter().flat_map(Event::lines).collect()
}

/// All that must be printed for a table and lines of printable characters, or the refusal of the table.
pub fn story(file: &[u8], input: &str) -> Result<String, String> {
    let table = Table::check(file).map_err(refused)?;
    let mut run = None;
    let mut out = String::new();
    for line in input.lines() {
        let told = match (parse(line), &mut run) {
            (Some(Line::Start(tasks)), _) => match Run::start(file, table, tasks) {
                Ok(started) => run.insert(started).opening(),
                Err(refusal) => vec![refused(refusal)],
            },
            (Some(line), Some(run)) => run.serve(line),
            _ => vec![refused(Refusal::Line)],
        };
        let shown = match line.len() {
            0..=64 => line.to_string(),
            _ => format!("{}...", &line[..64]),
        };
        out += &format!("> {shown}\n");
        told.iter().for_each(|line| out += &format!("  {line}\n"));
    }
    Ok(out)
}
