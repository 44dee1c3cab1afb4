//! The plain book of docs/RUNS.md, who is entered before which call, and its relation to the cells and records.

use crate::cells::Announcement;
use crate::configuration::{Call, CallAnswer, Configuration};
use crate::machine::Answer;
use crate::mid_work::Pending;
use crate::phase::Phase;
use crate::refusal::Refusal;
use crate::reply::Reply;
use crate::table::Table;

/// An operation begun: its task, its number and the place of its begin among the calls.
#[derive(Clone, Copy, Debug, PartialEq, Eq)]
pub struct Begun {
    pub task: usize,
    pub operation: usize,
    pub place: usize,
}

#[derive(Clone, Copy, Debug, PartialEq, Eq)]
pub enum Status {
    Idle,
    Waiting { begun: Begun, count: u32 },
    Done { response: u16, moved: bool, count: u32 },
}

impl Status {
    pub fn done(reply: Reply, count: u32) -> Status {
        let Reply { response, moved } = reply;
        Status::Done {
            response,
            moved,
            count,
        }
    }
}

#[derive(Clone, Debug, PartialEq, Eq)]
pub struct Book {
    pub state: usize,
    pub order: Vec<Begun>,
    pub tasks: Vec<Status>,
    /// What each task has pending, by the calls and answers that were booked.
    pub pending: Pending,
    calls: usize,
}

impl Book {
    pub fn new(table: &Table, tasks: usize) -> Book {
        Book {
            state: table.start,
            order: Vec::new(),
            tasks: vec![Status::Idle; tasks],
            pending: Pending::none(tasks),
            calls: 0,
        }
    }

    /// The book that belongs to a point, its order left out.
    pub fn of(point: &Configuration) -> Book {
        Book {
            state: usize::from(point.state()),
            order: Vec::new(),
            tasks: (0..point.tasks).map(|task| status_of(point, task)).collect(),
            pending: Pending::of_records(point),
            calls: 0,
        }
    }

    /// Enters a waiting task: its operation goes to the end of the order.
    pub fn enter(&mut self, table: &Table, task: usize) -> Result<(), String> {
        let Status::Waiting { begun, count } = self.tasks[task] else {
            return Err(format!("book: task {task} is entered but not waiting"));
        };
        let entry = table.entry(self.state, begun.operation);
        let next = usize::from(entry.next);
        self.tasks[task] = Status::Done {
            response: entry.response,
            moved: next != self.state,
            count,
        };
        self.state = next;
        self.order.push(begun);
        Ok(())
    }

    /// Books a call; the answer must be the one that the book allows.
    pub fn book(&mut self, table: &Table, call: Call, answer: CallAnswer) -> Result<(), String> {
        let place = self.calls;
        self.calls += 1;
        let allowed = match call {
            Call::Begin { task, operation } => self.book_begin(table, task, operation, place),
            Call::Step { task } => self.book_step(task, answer),
        };
        if allowed != answer {
            return Err(format!(
                "book: {call:?} answers {answer:?}, the book has {allowed:?}"
            ));
        }
        self.pending.note(call, answer);
        Ok(())
    }

    fn book_begin(&mut self, table: &Table, task: usize, operation: usize, place: usize) -> CallAnswer {
        let status = self.tasks.get_mut(task).ok_or(Refusal::Task)?;
        if operation >= table.operations {
            return Err(Refusal::Operation);
        }
        if *status != Status::Idle {
            return Err(Refusal::Pending);
        }
        let begun = Begun {
            task,
            operation,
            place,
        };
        *status = Status::Waiting { begun, count: 0 };
        Ok(None)
    }

    /// Running or ended is the program's choice; on ended the task must be done, with response, moved and count.
    fn book_step(&mut self, task: usize, answer: CallAnswer) -> CallAnswer {
        let status = self.tasks.get_mut(task).ok_or(Refusal::Task)?;
        let ended = matches!(answer, Ok(Some(Answer::Ended { .. })));
        match status {
            Status::Idle => return Err(Refusal::Idle),
            &mut Status::Done {
                response,
                moved,
                count,
            } if ended => {
                *status = Status::Idle;
                return Ok(Some(Answer::Ended {
                    response,
                    moved,
                    steps: count + 1,
                }));
            }
            Status::Waiting { count, .. } | Status::Done { count, .. } => *count += 1,
        }
        Ok(Some(Answer::Running))
    }

    /// A head with a holder and an announcement of kind 2 carry a reply. The task that it is for must be done, so that
    /// its operation stands in the order, and the reply must be the one that its entry gave.
    pub fn check_carried(&self, point: &Configuration) -> Result<(), String> {
        if let Some(holder) = point.holder() {
            self.check_carried_for(holder.task, holder.reply, "head")?;
        }
        for task in 0..point.tasks {
            if let Announcement::Response(reply) = point.content(task) {
                self.check_carried_for(task, reply, "announcement")?;
            }
        }
        Ok(())
    }

    fn check_carried_for(&self, task: usize, reply: Reply, cell: &str) -> Result<(), String> {
        match self.tasks.get(task) {
            Some(&Status::Done { response, moved, .. }) if reply == (Reply { response, moved }) => Ok(()),
            status => Err(format!(
                "carried: the {cell} has {reply:?} for task {task}, the book has {status:?}"
            )),
        }
    }

    /// The book's state, its tasks and what they have pending are those of the point.
    pub fn agrees_with(&self, point: &Configuration) -> Result<(), String> {
        self.agrees_with_book(&Book::of(point))
    }

    /// State, tasks and what they have pending are those of another book, which a point shows.
    pub fn agrees_with_book(&self, shown: &Book) -> Result<(), String> {
        if self.state != shown.state {
            return Err(format!("book: state {}, head: {}", self.state, shown.state));
        }
        if self.pending != shown.pending {
            let (pending, shown) = (self.pending, shown.pending);
            return Err(format!("book: {pending:?}, the records show {shown:?}"));
        }
        for (task, (&status, &shown)) in self.tasks.iter().zip(&shown.tasks).enumerate() {
            if without_place(status) != without_place(shown) {
                return Err(format!(
                    "book: task {task} is {status:?}, the cells show {shown:?}"
                ));
            }
        }
        Ok(())
    }
}

fn without_place(status: Status) -> Status {
    match status {
        Status::Waiting { begun, count } => Status::Waiting {
            begun: Begun { place: 0, ..begun },
            count,
        },
        other => other,
    }
}

fn status_of(point: &Configuration, task: usize) -> Status {
    let record = point.record(task);
    let count = record.steps;
    let begun = Begun {
        task,
        operation: usize::from(record.operation),
        place: 0,
    };
    match (point.content(task), point.holder()) {
        _ if !record.is_pending() => Status::Idle,
        (Announcement::Response(reply), _) => Status::done(reply, count),
        (Announcement::Operation(_), Some(holder)) if holder.task == task => {
            Status::done(holder.reply, count)
        }
        _ => Status::Waiting { begun, count },
    }
}

/// Who is entered before a call is booked: a reading task that steps, or the task whose operation is applied.
pub fn entered_before(point: &Configuration, call: Call) -> Option<usize> {
    let Call::Step { task } = call else {
        return None;
    };
    let record = point.row().get(task)?;
    match record.known_phase() {
        Phase::ReadOnly => Some(task),
        Phase::Apply(other) if point.head() == record.head => Some(other),
        _ => None,
    }
}

#[cfg(test)]
mod tests {
    use super::*;
    use crate::objects::{counter_up, flag};
    use crate::record::Record;

    const SET: usize = 1;

    /// A book of one task after the begin of an operation.
    fn begun(table: &Table, operation: usize) -> Book {
        let mut book = Book::new(table, 1);
        let begin = Call::Begin { task: 0, operation };
        book.book(table, begin, Ok(None)).unwrap();
        book
    }

    fn ended(response: u16, moved: bool) -> CallAnswer {
        Ok(Some(Answer::Ended {
            response,
            moved,
            steps: 1,
        }))
    }

    #[test]
    fn the_page_takes_response_and_moved_from_the_entry_used() {
        for (state, moved) in [(0, true), (1, false)] {
            let table = flag();
            let mut book = begun(&table, SET);
            book.state = state;
            book.enter(&table, 0).unwrap();
            let response = state as u16;
            assert_eq!(book.tasks, [Status::done(Reply { response, moved }, 0)]);
            assert_eq!(book.state, 1);
        }
    }

    #[test]
    fn an_end_agrees_in_response_and_in_moved() {
        let table = flag();
        let mut entered = begun(&table, SET);
        entered.enter(&table, 0).unwrap();
        let booked = |answer| entered.clone().book(&table, Call::Step { task: 0 }, answer);
        assert_eq!(booked(ended(0, true)), Ok(()));
        for wrong in [ended(0, false), ended(1, true), ended(1, false)] {
            assert!(booked(wrong).is_err());
        }
    }

    /// What is said of some cells by a book whose task 0 has counted up in state 0, or only waits to do so.
    fn said(cells: [u64; 2], entered: bool) -> String {
        let (table, up) = counter_up();
        let mut book = begun(&table, up);
        if entered {
            book.enter(&table, 0).unwrap();
        }
        let point = Configuration::of_parts(&cells, &[Record::idle(0)]);
        book.check_carried(&point).err().unwrap_or_default()
    }

    #[test]
    fn a_word_carries_the_reply_of_its_page() {
        assert_eq!(said([0x1100_0100, 0x0001_0100], true), "");
        assert_eq!(said([0x1100_0100, 0x0100_0200], true), "");
        assert_eq!(said([0x100, 0x0100_0201], true), "");
        for head in [0x0100_0100, 0x1101_0100, 0x0101_0100, 0x1200_0100] {
            assert!(said([head, 0], true).starts_with("carried: the head"));
        }
        for announcement in [0x200, 0x0101_0200, 0x0001_0200] {
            let cells = [0x1100_0100, announcement];
            assert!(said(cells, true).starts_with("carried: the announcement"));
        }
    }

    /// Task 0 has applied its set: its status is done, and which operation that was is noted by pending alone.
    #[test]
    fn what_is_pending_is_compared_with_the_records() {
        let table = flag();
        let mut book = begun(&table, SET);
        book.enter(&table, 0).unwrap();
        let of_record = |operation| Record {
            operation,
            ..Record::idle(0).with_phase(Phase::Poll)
        };
        let said = |operation| {
            let point = Configuration::of_parts(&[0x1100_0100, 0x0001_0100], &[of_record(operation)]);
            book.agrees_with(&point).err().unwrap_or_default()
        };
        assert_eq!(said(SET as u16), "");
        assert!(said(2).starts_with("book: Pending"));
    }

    #[test]
    fn a_word_carries_nothing_for_a_task_that_waits() {
        assert_eq!(said([0, 0x0001_0100], false), "");
        assert!(said([0x1100_0100, 0x0001_0100], false).starts_with("carried: the head"));
        assert!(said([0, 0x0100_0200], false).starts_with("carried: the announcement"));
    }
}
