//! The auditor of prints taken in mid-work. It sees what a surface engineer sees, the table, the lines of a script and what
//! was printed for them, and holds every print of the cells to the four facts.

use crate::cells::{count_marks, has_mark, kind, Announcement, Head, MOST_TASKS};
use crate::lines::{parse_line, Line};
use crate::machine::{announcement_cell, HEAD_CELL};
use crate::mid_work::{check_cells, Pending};
use crate::plain_books::{self, Event, Page};
use crate::printed::{parse_printed, Printed, Served};
use crate::refusal::Refusal;
use crate::reply::Reply;
use crate::table::Table;

/// How many prints were held to the facts, and how many of them showed what.
#[derive(Clone, Copy, Debug, Default, PartialEq, Eq)]
pub struct Seen {
    pub prints: usize,
    pub with_holder: usize,
    /// A task that is quiet, and one that has a changing operation pending.
    pub quiet_beside_busy: usize,
    /// An announcement of kind 0 with the mark of another task.
    pub empty_with_mark: usize,
    pub with_reader: usize,
}

impl Seen {
    fn note(&mut self, table: &Table, pending: &Pending, cells: &[u64]) {
        let tasks = 0..pending.tasks;
        let quiet = |task: &usize| pending.is_quiet(table, *task);
        let busy = tasks.clone().filter(|task| !quiet(task)).count();
        let reads = |task: usize| quiet(&task) && pending.of(task).is_some();
        self.prints += 1;
        self.with_holder += usize::from(Head::decode(cells[HEAD_CELL]).holder.is_some());
        self.quiet_beside_busy += usize::from(busy > 0 && busy < pending.tasks);
        self.empty_with_mark += usize::from(tasks.clone().any(|task| is_empty_with_mark(task, cells)));
        self.with_reader += usize::from(tasks.clone().any(reads));
    }

    pub fn add(&mut self, other: Seen) {
        self.prints += other.prints;
        self.with_holder += other.with_holder;
        self.quiet_beside_busy += other.quiet_beside_busy;
        self.empty_with_mark += other.empty_with_mark;
        self.with_reader += other.with_reader;
    }
}

fn is_empty_with_mark(task: usize, cells: &[u64]) -> bool {
    let word = cells[announcement_cell(task)];
    let others = (0..MOST_TASKS).filter(|&other| other != task);
    kind(word) == 0 && others.into_iter().any(|other| has_mark(word, other))
}

/// What the prints showed, or the first line that breaks a fact or can't have been printed.
pub fn audit(file: &[u8], script: &[Served]) -> Result<Seen, String> {
    let table = Table::check(file).map_err(|refusal| format!("the table gives x {}", refusal.number()))?;
    let table = table.with_changing_noted();
    let (events, watched) = watch(&table, script);
    let (lines, events): (Vec<usize>, Vec<Event>) = events.into_iter().unzip();
    plain_books::check(&table, &events)
        .map_err(|(place, message)| format!("line {}: {message}", lines[place]))?;
    watched
}

/// What happened in which line, up to one that breaks facts 1 to 3 or can't have been printed, and what the prints showed.
pub fn watch(table: &Table, script: &[Served]) -> (Vec<(usize, Event)>, Result<Seen, String>) {
    let mut auditor = Auditor {
        table,
        pending: None,
        seen: Seen::default(),
    };
    let mut events = Vec::new();
    for (line, served) in (1..).zip(script) {
        match auditor.watch(served) {
            Ok(event) => events.extend(event.map(|event| (line, event))),
            Err(message) => return (events, Err(format!("line {line}: {message}"))),
        }
    }
    (events, Ok(auditor.seen))
}

/// Follows a script line by line, with what is pending kept from the lines and what is printed for them.
struct Auditor<'a> {
    table: &'a Table<'a>,
    /// Nothing before the first accepted start.
    pending: Option<Pending>,
    seen: Seen,
}

impl Auditor<'_> {
    /// What happened in a line, with facts 1 to 3 tested; fact 4 is left to the books, which are fed with what happened.
    fn watch(&mut self, served: &Served) -> Result<Option<Event>, String> {
        let printed = match served.printed {
            None => None,
            Some(text) => Some(parse_printed(text).ok_or(format!("no known form: {text}"))?),
        };
        match (parse_line(served.line), self.pending) {
            (Some(Line::Start { tasks }), _) => self.start(tasks, printed),
            (None, _) | (_, None) => refused(Refusal::Line, printed).map(|_| None),
            (Some(Line::Begin { task, operation }), Some(pending)) => {
                self.begin(&pending, task, operation, printed).map(Some)
            }
            (Some(Line::Step { task }), Some(pending)) => self.step(&pending, task, printed).map(Some),
            (Some(Line::Drive { task }), Some(pending)) => match printed {
                None => Err("the operation does not end".to_string()),
                printed => self.step(&pending, task, printed).map(Some),
            },
            (Some(Line::Print), Some(pending)) => self.print(&pending, printed).map(Some),
        }
    }

    fn start(&mut self, tasks: usize, printed: Option<Printed>) -> Result<Option<Event>, String> {
        if !(1..=MOST_TASKS).contains(&tasks) {
            return refused(Refusal::Row, printed).map(|_| None);
        }
        let started = Printed::Started {
            tasks,
            states: self.table.states,
            operations: self.table.operations,
        };
        expect(Some(started), printed)?;
        self.pending = Some(Pending::none(tasks));
        Ok(Some(Event::Started { tasks }))
    }

    fn begin(
        &mut self,
        pending: &Pending,
        task: usize,
        operation: usize,
        printed: Option<Printed>,
    ) -> Result<Event, String> {
        if task >= pending.tasks {
            return refused(Refusal::Task, printed);
        }
        if operation >= self.table.operations {
            return refused(Refusal::Operation, printed);
        }
        if pending.of(task).is_some() {
            return refused(Refusal::Pending, printed);
        }
        expect(None, printed)?;
        self.pending
            .iter_mut()
            .for_each(|pending| pending.begin(task, operation));
        Ok(Event::Begun { task, operation })
    }

    /// A step that is running prints nothing.
    fn step(&mut self, pending: &Pending, task: usize, printed: Option<Printed>) -> Result<Event, String> {
        if task >= pending.tasks {
            return refused(Refusal::Task, printed);
        }
        if pending.of(task).is_none() {
            return refused(Refusal::Idle, printed);
        }
        match printed {
            None => Ok(Event::Called),
            Some(Printed::Replied { task: replied, reply }) if replied == task => {
                self.pending.iter_mut().for_each(|pending| pending.end(task));
                Ok(Event::Ended { task, reply })
            }
            Some(other) => Err(format!("a step of task {task} can't print {other:?}")),
        }
    }

    fn print(&mut self, pending: &Pending, printed: Option<Printed>) -> Result<Event, String> {
        let Some(Printed::Cells { cells, marks }) = printed else {
            return Err(format!("no cells are printed, but {printed:?}"));
        };
        if cells.len() != pending.tasks + 1 {
            return Err(format!("{} cells for {} tasks", cells.len(), pending.tasks));
        }
        if marks != count_marks(&cells) {
            return Err(format!(
                "{marks} marks are counted, the cells have {}",
                count_marks(&cells)
            ));
        }
        check_cells(self.table, pending, &cells)?;
        self.seen.note(self.table, pending, &cells);
        Ok(Event::Printed {
            state: usize::from(Head::decode(cells[HEAD_CELL]).state),
            pages: shown_pages(self.table, pending, &cells),
        })
    }
}

fn refused(refusal: Refusal, printed: Option<Printed>) -> Result<Event, String> {
    let number = refusal.number();
    expect(Some(Printed::Refused { number }), printed)?;
    Ok(Event::Called)
}

fn expect(expected: Option<Printed>, printed: Option<Printed>) -> Result<(), String> {
    match expected == printed {
        true => Ok(()),
        false => Err(format!("prints {printed:?}, must print {expected:?}")),
    }
}

/// What the cells show of each changing operation that is pending: with a reply, in the head or in its own announcement, it has
/// been entered with that reply, and without one it hasn't been entered.
fn shown_pages(table: &Table, pending: &Pending, cells: &[u64]) -> Vec<(usize, Page)> {
    let holder = Head::decode(cells[HEAD_CELL]).holder;
    let mut pages = Vec::new();
    for task in 0..pending.tasks {
        let Some(operation) = pending.changing(table, task) else {
            continue;
        };
        let announcement = Announcement::decode(cells[announcement_cell(task)]);
        let held = holder
            .filter(|holder| holder.task == task)
            .map(|holder| holder.reply);
        let replies: Vec<Reply> = [held, reply_in(announcement)].into_iter().flatten().collect();
        pages.extend(replies.iter().map(|&reply| (task, Page::Done(reply))));
        if replies.is_empty() {
            let announced = match announcement {
                Announcement::Operation(number) => usize::from(number),
                _ => operation,
            };
            pages.push((task, Page::Waiting(announced)));
        }
    }
    pages
}

fn reply_in(announcement: Announcement) -> Option<Reply> {
    match announcement {
        Announcement::Response(reply) => Some(reply),
        _ => None,
    }
}
