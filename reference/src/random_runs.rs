//! Long random schedules of up to eight tasks, with a whole book and a check of its order.

use std::collections::{HashMap, HashSet};

use crate::book::{Begun, Book};
use crate::configuration::{Call, CallAnswer, Configuration};
use crate::machine::Answer;
use crate::mid_work::check_state;
use crate::random::Random;
use crate::reply::Reply;
use crate::table::Table;
use crate::transition::{Checked, System};

/// An operation that ended: when it began and ended, and its reply.
struct EndedOperation {
    begun: Begun,
    end: usize,
    reply: Reply,
}

pub struct Findings {
    pub calls: usize,
    pub ended: usize,
    pub most_own_steps: u32,
}

/// Makes a number of calls and checks each, the head's state by a replay of the order too; at the end the order is checked.
pub fn run(system: System, tasks: usize, calls: usize, seed: u64) -> Result<Findings, String> {
    let make = |before: &Configuration, call, book: &mut Book| system.make_checked(before, call, book);
    run_replayed(system, tasks, calls, seed, make)
}

/// Makes a number of calls by what makes and checks one, with the head's state held to a replay of the order after each.
fn run_replayed(
    system: System,
    tasks: usize,
    calls: usize,
    seed: u64,
    mut make: impl FnMut(&Configuration, Call, &mut Book) -> Checked,
) -> Result<Findings, String> {
    let mut replay = Replay::new(system.table);
    let replayed = |before: &Configuration, call, book: &mut Book| {
        let (after, answer) = make(before, call, book)?;
        replay.go_on(system.table, &book.order);
        check_state(replay.reached, after.cells())?;
        Ok((after, answer))
    };
    run_by(system, tasks, calls, seed, replayed)
}

/// Makes a number of calls by what makes and checks one, and at the end replays the order.
pub fn run_by(
    system: System,
    tasks: usize,
    calls: usize,
    seed: u64,
    mut make: impl FnMut(&Configuration, Call, &mut Book) -> Checked,
) -> Result<Findings, String> {
    let table = system.table;
    let mut point = system.start(tasks)?;
    let mut book = Book::new(table, tasks);
    let mut schedule = Schedule::new(system, tasks, seed);
    let mut history = History::new(tasks);
    for place in 0..calls {
        let call = schedule.next_call(&point);
        let (after, answer) = make(&point, call, &mut book)
            .map_err(|message| format!("{message}\nseed {seed}, {tasks} tasks, call {place}: {call:?}"))?;
        history.note(place, call, answer);
        point = after;
    }
    history.check_order(table, &book)?;
    Ok(Findings {
        calls,
        ended: history.ended.len(),
        most_own_steps: history.most_own_steps,
    })
}

/// The state that a growing order has reached from the start state.
struct Replay {
    reached: usize,
    /// How many operations of the order have been replayed.
    replayed: usize,
}

impl Replay {
    fn new(table: &Table) -> Replay {
        Replay {
            reached: table.start,
            replayed: 0,
        }
    }

    fn go_on(&mut self, table: &Table, order: &[Begun]) {
        for begun in &order[self.replayed..] {
            self.reached = usize::from(table.entry(self.reached, begun.operation).next);
        }
        self.replayed = order.len();
    }
}

/// Chooses calls: single steps in turn, bursts of one task, tasks that stop for a long time, refused calls.
struct Schedule {
    random: Random,
    tasks: usize,
    /// Operations below this one are begun.
    begun: usize,
    operations: usize,
    burst: usize,
    favourite: usize,
    stopped: usize,
}

impl Schedule {
    fn new(system: System, tasks: usize, seed: u64) -> Schedule {
        Schedule {
            random: Random::new(seed),
            tasks,
            begun: system.begun,
            operations: system.table.operations,
            burst: 0,
            favourite: 0,
            stopped: 0,
        }
    }

    fn next_call(&mut self, point: &Configuration) -> Call {
        if self.random.chance(1, 200) {
            return self.any_call();
        }
        let task = self.choose_task();
        match point.record(task).is_pending() {
            true => Call::Step { task },
            false => Call::Begin {
                task,
                operation: self.random.below(self.begun),
            },
        }
    }

    /// Numbers in range or not, whatever the task is doing.
    fn any_call(&mut self) -> Call {
        let task = self.random.below(self.tasks + 2);
        match self.random.chance(1, 2) {
            true => Call::Step { task },
            false => Call::Begin {
                task,
                operation: self.any_operation(),
            },
        }
    }

    /// One that is begun, or one of the two behind the last.
    fn any_operation(&mut self) -> usize {
        let operation = self.random.below(self.begun + 2);
        match operation < self.begun {
            true => operation,
            false => operation - self.begun + self.operations,
        }
    }

    fn choose_task(&mut self) -> usize {
        if self.burst == 0 {
            self.favourite = self.random.below(self.tasks);
            self.burst = match self.random.below(4) {
                0 => self.random.between(1, 40),
                1 => self.random.between(1, 6),
                _ => 1,
            };
        }
        if self.random.chance(1, 300) {
            self.stopped = self.random.below(1 << self.tasks);
        }
        self.burst -= 1;
        if self.stopped >> self.favourite & 1 == 1 && self.random.chance(9, 10) {
            return self.random.below(self.tasks);
        }
        self.favourite
    }
}

/// What the calls and answers say, without a look at cells and records.
struct History {
    pending: Vec<Option<Begun>>,
    ended: Vec<EndedOperation>,
    most_own_steps: u32,
}

impl History {
    fn new(tasks: usize) -> History {
        History {
            pending: vec![None; tasks],
            ended: Vec::new(),
            most_own_steps: 0,
        }
    }

    fn note(&mut self, place: usize, call: Call, answer: CallAnswer) {
        match (call, answer) {
            (Call::Begin { task, operation }, Ok(_)) => {
                self.pending[task] = Some(Begun {
                    task,
                    operation,
                    place,
                });
            }
            (
                Call::Step { task },
                Ok(Some(Answer::Ended {
                    response,
                    moved,
                    steps,
                })),
            ) => {
                self.most_own_steps = self.most_own_steps.max(steps);
                self.note_end(place, task, Reply { response, moved });
            }
            _ => {}
        }
    }

    fn note_end(&mut self, end: usize, task: usize, reply: Reply) {
        let begun = self.pending[task]
            .take()
            .expect("an operation that ends has begun");
        self.ended.push(EndedOperation { begun, end, reply });
    }

    /// Every ended operation stands in the order once, pending ones at most once and no others; the replay gives
    /// the replies; an operation that ended before another began stands before it.
    fn check_order(&self, table: &Table, book: &Book) -> Result<(), String> {
        let end_of = |operation: &EndedOperation| (operation.begun.place, (operation.end, operation.reply));
        let mut ends: HashMap<usize, (usize, Reply)> = self.ended.iter().map(end_of).collect();
        let mut still_pending: HashSet<usize> =
            self.pending.iter().flatten().map(|begun| begun.place).collect();
        let mut state = table.start;
        let mut latest_begin = 0;
        for begun in &book.order {
            let right = table.reply(state, begun.operation);
            state = usize::from(table.entry(state, begun.operation).next);
            latest_begin = latest_begin.max(begun.place);
            match ends.remove(&begun.place) {
                Some((end, reply)) if end > latest_begin && reply == right => {}
                None if still_pending.remove(&begun.place) => {}
                other => return Err(format!("order: {begun:?} ends as {other:?}")),
            }
        }
        match ends.is_empty() && state == book.state {
            true => Ok(()),
            false => Err("order: an ended operation is missing".to_string()),
        }
    }
}

#[cfg(test)]
mod tests {
    use super::*;
    use crate::objects::{explored_objects, flag};

    #[test]
    fn schedules_of_all_numbers_of_tasks_keep_the_rules() {
        for object in &explored_objects() {
            for tasks in 1..=8 {
                let findings = run(object.system(), tasks, 3_000, 5).unwrap();
                assert!(findings.ended > 20, "{tasks} tasks: {}", findings.ended);
            }
        }
    }

    /// In the book's order every set becomes a clear.
    #[test]
    fn an_order_that_leads_elsewhere_is_found_by_the_replay() {
        let flag = &explored_objects()[0];
        let system = flag.system();
        let make = |before: &Configuration, call, book: &mut Book| {
            let made = system.make_checked(before, call, book)?;
            let sets = book.order.iter_mut().filter(|begun| begun.operation == 1);
            sets.for_each(|begun| begun.operation = 2);
            Ok(made)
        };
        let found = run_replayed(system, 2, 3_000, 5, make).err().unwrap();
        assert!(found.starts_with("fact 4"), "{found}");
    }

    fn history_of_one(response: u16, moved: bool) -> (History, Book, Table<'static>) {
        let table = flag();
        let mut history = History::new(1);
        let answer = Answer::Ended {
            response,
            moved,
            steps: 1,
        };
        history.note(
            0,
            Call::Begin {
                task: 0,
                operation: 0,
            },
            Ok(None),
        );
        history.note(1, Call::Step { task: 0 }, Ok(Some(answer)));
        let book = Book::new(&table, 1);
        (history, book, table)
    }

    const READ: Begun = Begun {
        task: 0,
        operation: 0,
        place: 0,
    };

    #[test]
    fn an_order_that_replays_is_accepted() {
        let (history, mut book, table) = history_of_one(0, false);
        book.order.push(READ);
        assert_eq!(history.check_order(&table, &book), Ok(()));
    }

    #[test]
    fn wrong_orders_are_found() {
        let (history, mut book, table) = history_of_one(0, false);
        assert!(history.check_order(&table, &book).is_err());
        book.order = vec![READ, READ];
        assert!(history.check_order(&table, &book).is_err());
        for (response, moved) in [(1, false), (0, true)] {
            let (history, mut book, table) = history_of_one(response, moved);
            book.order = vec![READ];
            assert!(history.check_order(&table, &book).is_err());
        }
    }
}
