//! What is checked at every transition: answer, invariant, book, what the cells carry, rest image, potential, which call
//! empties an announcement, and the facts of mid-work.

use crate::book::{entered_before, Book};
use crate::ceiling::ceiling;
use crate::configuration::{Call, CallAnswer, Configuration};
use crate::invariant;
use crate::machine::Answer;
use crate::mid_work::{self, Pending};
use crate::potential::{at_begin, potential};
use crate::refusal::Refusal;
use crate::rules::Rules;
use crate::table::Table;

/// An object, how many of its operations tasks begin, from 0 up, and the rules that tasks follow.
#[derive(Clone, Copy)]
pub struct System<'a> {
    pub table: &'a Table<'a>,
    pub begun: usize,
    pub rules: Rules,
}

/// The point after a call and the call's answer, or the rule that it breaks.
pub type Checked = Result<(Configuration, CallAnswer), String>;

impl<'a> System<'a> {
    /// The machine's rules, with every operation begun.
    pub fn of_machine(table: &'a Table<'a>) -> System<'a> {
        System {
            table,
            begun: table.operations,
            rules: Rules::MACHINE,
        }
    }
}

impl System<'_> {
    /// The point after the start, with the facts of mid-work checked.
    pub fn start(&self, tasks: usize) -> Result<Configuration, String> {
        let point = Configuration::started_by(self.rules, self.table, tasks)
            .map_err(|refusal| format!("start answers {}", refusal.number()))?;
        let nothing = Pending::none(tasks);
        mid_work::check(self.table, &nothing, self.table.start, point.cells())?;
        Ok(point)
    }

    /// Makes a call and checks all that must hold; the book is carried along.
    pub fn make_checked(&self, before: &Configuration, call: Call, book: &mut Book) -> Checked {
        let made = self.make(before, call);
        invariant::check(self.table, &made.after)?;
        made.check_beside_invariant(book)?;
        Ok((made.after, made.answer))
    }

    pub fn make<'a>(&'a self, before: &'a Configuration, call: Call) -> Transition<'a> {
        let mut after = *before;
        let answer = after.make(self.rules, self.table, call);
        Transition {
            table: self.table,
            before,
            call,
            after,
            answer,
        }
    }
}

/// A call that was made: the points before and after it, and its answer.
pub struct Transition<'a> {
    pub table: &'a Table<'a>,
    before: &'a Configuration,
    pub call: Call,
    pub after: Configuration,
    pub answer: CallAnswer,
}

impl Transition<'_> {
    /// All that must hold but the invariant; the facts come as soon as the call is booked.
    pub fn check_beside_invariant(&self, book: &mut Book) -> Result<(), String> {
        self.check_booked(book)?;
        mid_work::check(self.table, &book.pending, book.state, self.after.cells())?;
        self.check_emptied_exactly_if_ended()?;
        self.check_rest()?;
        self.check_reader()?;
        book.check_carried(&self.after)?;
        book.agrees_with(&self.after)?;
        self.check_potentials()
    }

    pub fn check_rest(&self) -> Result<(), String> {
        match self.after.is_at_rest(self.table) && !self.after.shows_image() {
            true => Err("the cells at rest are not the image".to_string()),
            false => Ok(()),
        }
    }

    /// Refusals and the book's answer; the ceiling is kept because a step past it would be refused with 11.
    fn check_booked(&self, book: &mut Book) -> Result<(), String> {
        if let Err(refusal) = self.answer {
            check_refusal(self.before, &self.after, refusal)?;
        }
        if let Some(task) = entered_before(self.before, self.call) {
            book.enter(self.table, task)?;
        }
        book.book(self.table, self.call, self.answer)
    }

    /// A reading operation ends in its one step.
    fn check_reader(&self) -> Result<(), String> {
        match self.call {
            Call::Step { task } if self.is_running_reader(task) => {
                Err(format!("task {task} reads and is running"))
            }
            _ => Ok(()),
        }
    }

    fn is_running_reader(&self, task: usize) -> bool {
        self.answer == Ok(Some(Answer::Running)) && !self.before.has_changing_pending(self.table, task)
    }

    /// For every task: its announcement is emptied exactly if the call is a step of it that ends a changing operation.
    pub fn check_emptied_exactly_if_ended(&self) -> Result<(), String> {
        for task in 0..self.after.tasks {
            let emptied = !self.before.is_empty(task) && self.after.is_empty(task);
            match (emptied, self.ends_changing(task)) {
                (true, false) => return Err(format!("emptied, not ended: the announcement of task {task}")),
                (false, true) => return Err(format!("ended, not emptied: the announcement of task {task}")),
                _ => {}
            }
        }
        Ok(())
    }

    fn ends_changing(&self, task: usize) -> bool {
        self.call == Call::Step { task }
            && matches!(self.answer, Ok(Some(Answer::Ended { .. })))
            && self.before.has_changing_pending(self.table, task)
    }

    /// Own steps lower the potential, other calls do not raise it, and with the steps made it keeps to the ceiling.
    pub fn check_potentials(&self) -> Result<(), String> {
        let tasks = self.after.tasks;
        for task in 0..tasks {
            let old = self.potential_at(self.before, task);
            let new = self.potential_at(&self.after, task);
            let own_step = self.call == Call::Step { task };
            match (old, new) {
                (Some(old), _) if new.unwrap_or(0) + u32::from(own_step) > old => {
                    return Err(format!("potential of task {task} from {old} to {new:?}"));
                }
                (None, Some(new)) if new != at_begin(tasks) => {
                    return Err(format!("potential of task {task} at its begin is {new}"));
                }
                _ => {}
            }
            let steps = self.after.record(task).steps;
            if ceiling(tasks).is_ok_and(|most| steps + new.unwrap_or(0) > most) {
                return Err(format!("steps and potential of task {task} pass the ceiling"));
            }
        }
        Ok(())
    }

    fn potential_at(&self, point: &Configuration, task: usize) -> Option<u32> {
        point
            .has_changing_pending(self.table, task)
            .then(|| potential(point, task))
    }
}

#[cfg(test)]
impl Transition<'_> {
    /// The image at rest and the answer.
    pub fn check_service(&self, book: &mut Book) -> Result<(), String> {
        self.check_rest()?;
        self.check_answer(book)
    }

    /// Refusals, the book's answer and the one step of a reading operation.
    pub fn check_answer(&self, book: &mut Book) -> Result<(), String> {
        self.check_booked(book)?;
        self.check_reader()
    }
}

/// In a run only 7 to 10 occur, and a refused call changes nothing.
fn check_refusal(before: &Configuration, after: &Configuration, refusal: Refusal) -> Result<(), String> {
    let may_occur = matches!(
        refusal,
        Refusal::Task | Refusal::Operation | Refusal::Pending | Refusal::Idle
    );
    match may_occur && before == after {
        true => Ok(()),
        false => Err(format!("refusal {} in a run", refusal.number())),
    }
}

#[cfg(test)]
mod tests {
    use super::*;
    use crate::objects::counter_up;
    use crate::phase::Phase;
    use crate::record::Record;

    const RESPONSE: u64 = 0x0001_0200;
    const MARK: u64 = 2;
    const RUNNING: CallAnswer = Ok(Some(Answer::Running));
    const ENDED: CallAnswer = Ok(Some(Answer::Ended {
        response: 1,
        moved: true,
        steps: 17,
    }));

    /// What is said of a call of two tasks, both in a changing operation, that leads from some announcements to others.
    fn said(from: [u64; 2], to: [u64; 2], call: Call, answer: CallAnswer) -> String {
        let (table, operation) = counter_up();
        let retracting = Record {
            operation: operation as u16,
            ..Record::idle(0).with_phase(Phase::Retract)
        };
        let point = |cells: [u64; 2]| Configuration::of_parts(&[0, cells[0], cells[1]], &[retracting; 2]);
        let made = Transition {
            table: &table,
            before: &point(from),
            call,
            after: point(to),
            answer,
        };
        made.check_emptied_exactly_if_ended().err().unwrap_or_default()
    }

    /// What is said of the begin of the counter's operation in one of two tasks, if the point after it is altered.
    fn said_of_altered(alter: impl Fn(&mut [u64], &mut [Record])) -> String {
        let (table, operation) = counter_up();
        let system = System::of_machine(&table);
        let before = system.start(2).unwrap();
        let mut made = system.make(&before, Call::Begin { task: 0, operation });
        let (cells, row) = made.after.parts_mut();
        alter(cells, row);
        let said = made.check_beside_invariant(&mut Book::of(&before));
        said.err().unwrap_or_default()
    }

    #[test]
    fn each_fact_is_checked_beside_the_invariant() {
        assert_eq!(said_of_altered(|_, _| {}), "");
        for (cell, bits, fact) in [
            (2, 0x100, "fact 1"),
            (1, 2, "fact 2"),
            (0, 0x80, "fact 2"),
            (0, 2 << 24, "fact 3"),
            (0, 0x100, "fact 4"),
        ] {
            let found = said_of_altered(|cells, _| cells[cell] |= bits);
            assert!(found.starts_with(fact), "{found}");
        }
    }

    #[test]
    fn the_records_have_pending_what_was_begun_and_has_not_ended() {
        for found in [
            said_of_altered(|_, row| row[0] = Record::idle(0)),
            said_of_altered(|_, row| row[0].operation = 2),
            said_of_altered(|_, row| row[1] = row[0]),
        ] {
            assert!(found.starts_with("book: Pending"), "{found}");
        }
    }

    /// Rules whose start leaves other bits in a cell.
    macro_rules! starting_with {
        ($cell:expr, $bits:expr) => {
            Rules {
                start: |table, cells, row| {
                    Rules::MACHINE.start(table, cells, row)?;
                    cells[$cell] |= $bits;
                    Ok(())
                },
                ..Rules::MACHINE
            }
        };
    }

    #[test]
    fn the_facts_are_checked_at_the_start() {
        let (table, _) = counter_up();
        for (rules, fact) in [
            (starting_with!(1, 0x0001_0100), "fact 1"),
            (starting_with!(2, 1), "fact 2"),
            (starting_with!(0, 1 << 24), "fact 3"),
            (starting_with!(0, 0x100), "fact 4"),
        ] {
            let system = System {
                rules,
                ..System::of_machine(&table)
            };
            let found = system.start(2).unwrap_err();
            assert!(found.starts_with(fact), "{found}");
        }
    }

    #[test]
    fn the_step_that_ends_empties_and_the_one_that_empties_ends() {
        let step = Call::Step { task: 0 };
        let both = [RESPONSE, RESPONSE];
        let emptied = [0, RESPONSE];
        assert_eq!(said(both, emptied, step, ENDED), "");
        assert_eq!(said(both, both, step, RUNNING), "");
        assert!(said(both, emptied, step, RUNNING).starts_with("emptied, not ended"));
        assert!(said(both, both, step, ENDED).starts_with("ended, not emptied"));
        assert!(said([0, RESPONSE], emptied, step, ENDED).starts_with("ended, not emptied"));
    }

    #[test]
    fn no_other_call_empties_an_announcement() {
        let both = [RESPONSE, RESPONSE];
        let begin = Call::Begin {
            task: 1,
            operation: 0,
        };
        let refused = Err(Refusal::Pending);
        for (call, answer) in [
            (Call::Step { task: 0 }, RUNNING),
            (begin, Ok(None)),
            (begin, refused),
        ] {
            let found = said(both, [RESPONSE, 0], call, answer);
            assert_eq!(found, "emptied, not ended: the announcement of task 1");
        }
    }

    #[test]
    fn a_mark_taken_from_an_empty_announcement_empties_nothing() {
        let step = Call::Step { task: 0 };
        assert_eq!(said([RESPONSE, MARK], [RESPONSE, 0], step, RUNNING), "");
        assert_eq!(said([RESPONSE | MARK, 0], [RESPONSE, 0], step, RUNNING), "");
    }
}
