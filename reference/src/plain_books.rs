//! All plain books that agree with what was seen of a run: who has been entered when is the program's choice, and what is
//! seen are the calls, their answers and prints of the cells.

use std::collections::BTreeSet;

use crate::cells::MOST_TASKS;
use crate::reply::Reply;
use crate::table::Table;

/// What was seen of a run.
#[derive(Clone, Debug, PartialEq, Eq)]
pub enum Event {
    Started {
        tasks: usize,
    },
    Begun {
        task: usize,
        operation: usize,
    },
    /// A call that the book keeps no note of: a step that is running, a refused begin or step.
    Called,
    /// Some steps of a task, the last of which ended its operation.
    Ended {
        task: usize,
        reply: Reply,
    },
    /// The head's state, and pages that the cells show.
    Printed {
        state: usize,
        pages: Vec<(usize, Page)>,
    },
}

/// What a book has for a task.
#[derive(Clone, Debug, PartialEq, Eq, PartialOrd, Ord)]
pub enum Page {
    Idle,
    Waiting(usize),
    Done(Reply),
    /// Not entered, as that would move nothing, but with the replies of all states that the book has come to since the begin.
    Reading {
        operation: usize,
        replies: BTreeSet<Reply>,
    },
}

/// A book without its order and its counts: what is printed shows neither.
#[derive(Clone, Debug, PartialEq, Eq, PartialOrd, Ord)]
struct PlainBook {
    state: usize,
    pages: Vec<Page>,
}

impl PlainBook {
    /// The book after the entering of a task, if the task waits with a changing operation.
    fn entered(&self, table: &Table, task: usize) -> Option<PlainBook> {
        let Page::Waiting(operation) = self.pages[task] else {
            return None;
        };
        let mut entered = self.clone();
        entered.pages[task] = Page::Done(table.reply(self.state, operation));
        entered.state = usize::from(table.entry(self.state, operation).next);
        for page in &mut entered.pages {
            if let Page::Reading { operation, replies } = page {
                replies.insert(table.reply(entered.state, *operation));
            }
        }
        Some(entered)
    }

    /// The books after the entering of one task that is not against what is seen later.
    fn all_entered(&self, table: &Table, later: &Later) -> Vec<PlainBook> {
        let agrees = |entered: &PlainBook, task: usize| {
            let page = later[task].as_ref();
            page.is_none_or(|page| entered.pages[task] == *page)
        };
        (0..self.pages.len())
            .filter_map(|task| self.entered(table, task).filter(|entered| agrees(entered, task)))
            .collect()
    }

    fn begun(mut self, table: &Table, task: usize, operation: usize) -> PlainBook {
        self.pages[task] = match table.is_changing(operation) {
            true => Page::Waiting(operation),
            false => Page::Reading {
                operation,
                replies: BTreeSet::from([table.reply(self.state, operation)]),
            },
        };
        self
    }

    /// The book after the end of a task's operation, if it may have that reply.
    fn ended(mut self, task: usize, reply: Reply) -> Option<PlainBook> {
        let agrees = match &self.pages[task] {
            Page::Done(done) => *done == reply,
            Page::Reading { replies, .. } => replies.contains(&reply),
            _ => false,
        };
        self.pages[task] = Page::Idle;
        agrees.then_some(self)
    }

    fn shows(&self, pages: &[(usize, Page)]) -> bool {
        pages.iter().all(|(task, page)| self.pages[*task] == *page)
    }
}

/// For each task the page that is seen next of the operation that it has pending, if any is.
type Later = [Option<Page>; MOST_TASKS];

/// For each event what is seen from there on.
fn later_pages(events: &[Event]) -> Vec<Later> {
    let mut later = Later::default();
    let mut all = Vec::new();
    for event in events.iter().rev() {
        match event {
            Event::Started { .. } => later = Later::default(),
            Event::Begun { task, .. } => later[*task] = None,
            Event::Called => {}
            Event::Ended { task, reply } => later[*task] = Some(Page::Done(*reply)),
            Event::Printed { pages, .. } => {
                for (task, page) in pages {
                    later[*task] = Some(page.clone());
                }
            }
        }
        all.push(later.clone());
    }
    all.reverse();
    all
}

/// Finds the first event with which no book agrees: its place, and what is wrong there.
pub fn check(table: &Table, events: &[Event]) -> Result<(), (usize, String)> {
    let mut books = Books {
        table,
        books: BTreeSet::new(),
    };
    for (place, (event, later)) in events.iter().zip(later_pages(events)).enumerate() {
        books.note(event, &later).map_err(|message| (place, message))?;
    }
    Ok(())
}

/// The books that agree with all that was seen so far, but for those that enter somebody against what is seen later: these
/// would agree with nothing then.
struct Books<'a> {
    table: &'a Table<'a>,
    books: BTreeSet<PlainBook>,
}

impl Books<'_> {
    fn note(&mut self, event: &Event, later: &Later) -> Result<(), String> {
        match event {
            Event::Started { tasks } => self.start(*tasks),
            Event::Begun { task, operation } => {
                self.enter(later);
                let (table, books) = (self.table, std::mem::take(&mut self.books));
                self.books = books
                    .into_iter()
                    .map(|book| book.begun(table, *task, *operation))
                    .collect();
            }
            Event::Called => self.enter(later),
            Event::Ended { task, reply } => return self.end(*task, *reply, later),
            Event::Printed { state, pages } => return self.print(*state, pages),
        }
        Ok(())
    }

    fn start(&mut self, tasks: usize) {
        self.books = BTreeSet::from([PlainBook {
            state: self.table.start,
            pages: vec![Page::Idle; tasks],
        }]);
    }

    /// Before a call: tasks that wait may be entered, one after another, in any order.
    fn enter(&mut self, later: &Later) {
        let mut front = Vec::from_iter(self.books.iter().cloned());
        while let Some(book) = front.pop() {
            for entered in book.all_entered(self.table, later) {
                if self.books.insert(entered.clone()) {
                    front.push(entered);
                }
            }
        }
    }

    fn end(&mut self, task: usize, reply: Reply, later: &Later) -> Result<(), String> {
        self.enter(later);
        let books = std::mem::take(&mut self.books);
        self.books = books
            .into_iter()
            .filter_map(|book| book.ended(task, reply))
            .collect();
        match self.books.is_empty() {
            true => Err(format!(
                "fact 4: no order that has led to the printed states gives task {task} that answer"
            )),
            false => Ok(()),
        }
    }

    fn print(&mut self, state: usize, pages: &[(usize, Page)]) -> Result<(), String> {
        self.books.retain(|book| book.shows(pages));
        let reached = BTreeSet::from_iter(self.books.iter().map(|book| book.state));
        self.books.retain(|book| book.state == state);
        match (self.books.is_empty(), reached.is_empty()) {
            (false, _) => Ok(()),
            (true, true) => {
                Err("carried: no order agrees with what the cells show of each operation".to_string())
            }
            (true, false) => Err(format!(
                "fact 4: cell 0 has state {state}, the order has reached {reached:?}"
            )),
        }
    }
}

#[cfg(test)]
mod tests {
    use super::*;
    use crate::audit::watch;
    use crate::bench::Bench;
    use crate::desk::{ring_table, ORDINARY};
    use crate::printed::Served;
    use crate::random::Random;
    use crate::table_file::TableFile;

    /// A state and the pages of all tasks, which are idle, waiting or done, also if they read.
    type WholeBook = (usize, Vec<Page>);

    /// Whoever waits may be entered.
    fn closed(table: &Table, mut books: BTreeSet<WholeBook>) -> BTreeSet<WholeBook> {
        let mut front = Vec::from_iter(books.iter().cloned());
        while let Some(book) = front.pop() {
            for entered in (0..book.1.len()).filter_map(|task| entered(table, &book, task)) {
                if books.insert(entered.clone()) {
                    front.push(entered);
                }
            }
        }
        books
    }

    fn entered(table: &Table, (state, pages): &WholeBook, task: usize) -> Option<WholeBook> {
        let Page::Waiting(operation) = pages[task] else {
            return None;
        };
        let mut entered = pages.clone();
        entered[task] = Page::Done(table.reply(*state, operation));
        Some((usize::from(table.entry(*state, operation).next), entered))
    }

    /// The book after an event, if it agrees with it.
    fn followed((state, mut pages): WholeBook, event: &Event) -> Option<WholeBook> {
        match event {
            Event::Started { .. } | Event::Called => {}
            Event::Begun { task, operation } => pages[*task] = Page::Waiting(*operation),
            Event::Ended { task, reply } => {
                let done = std::mem::replace(&mut pages[*task], Page::Idle);
                return (done == Page::Done(*reply)).then_some((state, pages));
            }
            Event::Printed {
                state: shown,
                pages: of_tasks,
            } => {
                let agrees = state == *shown && of_tasks.iter().all(|(task, page)| pages[*task] == *page);
                return agrees.then_some((state, pages));
            }
        }
        Some((state, pages))
    }

    /// The same by the rules of the book alone: reading tasks are entered like others, and nothing is known of what comes.
    fn check_plainly(table: &Table, events: &[Event]) -> Result<(), usize> {
        let mut books = BTreeSet::new();
        for (place, event) in events.iter().enumerate() {
            let before = match event {
                Event::Started { tasks } => BTreeSet::from([(table.start, vec![Page::Idle; *tasks])]),
                Event::Printed { .. } => books,
                _ => closed(table, books),
            };
            books = before
                .into_iter()
                .filter_map(|book| followed(book, event))
                .collect();
            if books.is_empty() {
                return Err(place);
            }
        }
        Ok(())
    }

    /// What is seen of some lines of up to three tasks, with a print here and there.
    fn seen_events(file: &[u8], random: &mut Random) -> Vec<Event> {
        let mut bench = Bench::new(file).unwrap();
        let tasks = random.between(1, 3);
        let mut served = vec![(format!("n {tasks}"), bench.serve(format!("n {tasks}").as_bytes()))];
        for _ in 0..random.between(5, 60) {
            let task = random.below(tasks);
            let line = match random.below(12) {
                0 => format!("d {task}"),
                1..=3 => "m".to_string(),
                _ if bench.pending()[task] => format!("s {task}"),
                _ => format!("b {task} {}", random.below(bench.operations())),
            };
            let printed = bench.serve(line.as_bytes());
            served.push((line, printed));
        }
        let script: Vec<Served> = served
            .iter()
            .map(|(line, printed)| Served {
                line: line.as_bytes(),
                printed: printed.strip_suffix('\n'),
            })
            .collect();
        let (events, watched) = watch(&bench.table(), &script);
        watched.unwrap();
        events.into_iter().map(|(_, event)| event).collect()
    }

    /// Another state, response, moved bit or page in some print or answer.
    fn alter(events: &mut [Event], table: &Table, random: &mut Random) {
        let place = random.below(events.len());
        let other = Reply {
            response: random.below(3) as u16,
            moved: random.chance(1, 2),
        };
        match &mut events[place] {
            Event::Ended { reply, .. } => *reply = other,
            Event::Printed { state, pages } => match pages.first_mut() {
                Some((_, page)) if random.chance(1, 2) => *page = Page::Done(other),
                _ => *state = random.below(table.states),
            },
            _ => {}
        }
    }

    /// What is seen later only tells earlier that no book agrees.
    #[test]
    fn books_that_leave_reading_open_and_look_ahead_agree_exactly_if_plain_ones_do() {
        let rings = ring_table(&[1, ORDINARY].repeat(2)).unwrap();
        let files = [
            TableFile::flag().to_bytes(),
            TableFile::spare_state().to_bytes(),
            rings,
        ];
        let mut verdicts = [0; 2];
        for seed in 0..3_000 {
            let random = &mut Random::new(seed);
            let file = random.pick(&files).clone();
            let table = Table::check(&file).unwrap().with_changing_noted();
            let mut events = seen_events(&file, random);
            for _ in 0..random.below(4) {
                alter(&mut events, &table, random);
            }
            let found = check(&table, &events).map_err(|(place, _)| place);
            let plainly = check_plainly(&table, &events);
            assert_eq!(
                found.is_ok(),
                plainly.is_ok(),
                "seed {seed}: {found:?}, {plainly:?}"
            );
            assert!(found.is_ok() || found.err() <= plainly.err(), "seed {seed}");
            verdicts[usize::from(found.is_ok())] += 1;
        }
        assert!(verdicts.iter().all(|&count| count > 500), "{verdicts:?}");
    }
}
