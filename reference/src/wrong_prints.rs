//! Wrong builds that prints taken in mid-work show: which of the four facts finds each of them, and what else does.

use crate::book::Book;
use crate::calls;
use crate::cells::{image, Announcement};
use crate::configuration::{Call, Configuration};
use crate::longest::longest_own_steps;
use crate::mid_work::check_state;
use crate::phase::Phase;
use crate::random_runs;
use crate::record::Record;
use crate::refusal::Refusal;
use crate::rules::Rules;
use crate::table::Table;
use crate::transition::Transition;
use crate::wrong_builds::{assert_broken, assert_found, explore_by, explored_object, leaving, run_by, Check};

/// A helper that finds a response goes on with the head and leaves its mark beside the response.
pub fn response_keeps_mark() -> Rules {
    leaving!(|_, phase, own, _, right| {
        let response = matches!(Announcement::decode(own.announcement), Announcement::Response(_));
        match (phase, right.known_phase()) {
            (Phase::LinkHelped(_), Phase::Release(_)) if response => own.with_head_in(Phase::ClearHead),
            _ => right,
        }
    })
}

/// The same with an announcement that is found empty.
pub fn empty_keeps_mark() -> Rules {
    leaving!(|_, phase, own, _, right| {
        let empty = Announcement::decode(own.announcement) == Announcement::Empty;
        match (phase, right.known_phase()) {
            (Phase::LinkHelped(_), Phase::Release(_)) if empty => own.with_head_in(Phase::ClearHead),
            _ => right,
        }
    })
}

/// The exit retracts with its mark in the head.
pub fn exit_keeps_mark() -> Rules {
    leaving!(|_, _, _, _, right| match right.known_phase() {
        Phase::ReleaseExit => right.with_payload_in(Phase::Retract),
        _ => right,
    })
}

/// Who finds the own response empties the announcement without a look at the head.
pub fn exit_keeps_head() -> Rules {
    leaving!(|_, phase, _, _, right| match (phase, right.known_phase()) {
        (Phase::Poll, Phase::LoadExit) => right.with_payload_in(Phase::Retract),
        _ => right,
    })
}

/// A helper that has lost the head looks for its own response at once, its mark in the helped announcement.
pub fn validate_keeps_mark() -> Rules {
    leaving!(|_, phase, own, _, right| match (phase, right.known_phase()) {
        (Phase::Validate(_), Phase::Release(_)) => own.bare_in_phase(Phase::Poll),
        _ => right,
    })
}

/// A reading operation is announced.
pub fn reading_announced() -> Rules {
    fn begin(table: &Table, row: &mut [Record], task: usize, operation: usize) -> Result<(), Refusal> {
        calls::begin(table, row, task, operation)?;
        row[task] = row[task].with_phase(Phase::Announce);
        Ok(())
    }
    Rules {
        begin,
        ..Rules::MACHINE
    }
}

/// The image at rest alone.
fn check_rest(made: &Transition, _: &mut Book) -> Result<(), String> {
    made.check_rest()
}

/// The answers alone, by the book.
fn check_answer(made: &Transition, book: &mut Book) -> Result<(), String> {
    made.check_answer(book)
}

/// What the cells carry, by a book that is kept as the answers are right or wrong.
fn check_carried(made: &Transition, book: &mut Book) -> Result<(), String> {
    let _right_or_wrong = made.check_answer(book);
    book.check_carried(&made.after)
}

/// All checks but those of the invariant and of the facts.
fn check_all_else(made: &Transition, book: &mut Book) -> Result<(), String> {
    made.check_emptied_exactly_if_ended()?;
    made.check_service(book)?;
    book.check_carried(&made.after)?;
    book.agrees_with(&made.after)?;
    made.check_potentials()
}

/// What one check alone says of two tasks, in all schedules.
fn said(check: Check, rules: Rules) -> String {
    explore_by(check, rules).err().unwrap_or_default()
}

fn assert_said(check: Check, rules: Rules, reason: &str) {
    let found = said(check, rules);
    assert!(found.starts_with(reason), "{found}");
}

/// In all schedules of two tasks and in long ones of three, clause and fact find the build, and all other checks find nothing:
/// answers, book, image at rest, what the cells carry, what empties an announcement, potential and longest operation.
fn assert_found_alone(rules: Rules, clause: &str, fact: &str) {
    for tasks in [2, 3] {
        assert_found(rules, tasks, &format!("invariant: {clause}"));
        assert_broken(rules, tasks, fact);
    }
    let graph = explore_by(check_all_else, rules).unwrap();
    assert_eq!(longest_own_steps(&graph, 0), Ok(124));
    assert_eq!(run_by(check_all_else, rules), Ok(()));
}

/// The owner's last write takes the mark away with the response, so it never stands there at rest.
#[test]
fn a_mark_left_beside_a_response_is_found_by_t2_and_fact_2_alone() {
    assert_found_alone(response_keeps_mark(), "T2", "fact 2");
}

/// The same: the announcement holds an operation then, and its owner ends later.
#[test]
fn an_end_with_the_mark_still_in_another_announcement_is_found_by_t2_and_fact_2_alone() {
    assert_found_alone(validate_keeps_mark(), "T2", "fact 2");
}

/// In an empty announcement the mark may stand until its owner announces again.
#[test]
fn an_exit_that_keeps_its_mark_on_the_head_and_a_mark_left_in_an_empty_announcement() {
    for rules in [exit_keeps_mark(), empty_keeps_mark()] {
        assert_found(rules, 2, "invariant: T2");
        assert_broken(rules, 2, "fact 2");
        assert_said(check_rest, rules, "the cells at rest are not the image");
        assert_eq!(run_by(check_answer, rules), Ok(()));
    }
}

/// At rest the head has no holder: who has handed the response over clears the head before it ends.
#[test]
fn an_announcement_emptied_before_the_head_has_dropped_the_response() {
    let rules = exit_keeps_head();
    assert_found(rules, 2, "invariant: G1");
    assert_broken(rules, 2, "fact 3");
    assert_said(check_answer, rules, "book: task 1 is entered but not waiting");
    assert_said(check_carried, rules, "carried: the head");
    assert_said(|made, _| made.check_potentials(), rules, "potential");
    assert_eq!(said(check_rest, rules), "");
}

#[test]
fn a_reading_operation_that_is_announced() {
    let rules = reading_announced();
    assert_found(rules, 2, "invariant: forms of the record");
    assert_broken(rules, 2, "fact 1");
    assert_said(check_rest, rules, "the cells at rest are not the image");
    assert_said(check_answer, rules, "task 0 reads and is running");
    let emptied: Check = |made, _| made.check_emptied_exactly_if_ended();
    assert_said(emptied, rules, "emptied, not ended");
}

/// What the explorer checks beside the invariant has the facts among it.
#[test]
fn without_the_invariant_the_explorer_finds_the_fact() {
    for (rules, fact) in [
        (reading_announced(), "fact 1"),
        (response_keeps_mark(), "fact 2"),
        (validate_keeps_mark(), "fact 2"),
        (exit_keeps_head(), "fact 3"),
    ] {
        assert_said(|made, book| made.check_beside_invariant(book), rules, fact);
    }
}

/// Who is entered by a book that waits for the end: who reads, or is about to empty its announcement.
fn entered_at_end(before: &Configuration, call: Call) -> Option<usize> {
    let Call::Step { task } = call else {
        return None;
    };
    match before.row().get(task)?.known_phase() {
        Phase::ReadOnly | Phase::Retract => Some(task),
        _ => None,
    }
}

/// Long schedules of the right machine, with a book that enters an operation at its end; answers and order are checked, and
/// whatever else is given.
fn run_with_late_book(tasks: usize, check: Check) -> Result<(), String> {
    let flag = explored_object("flag");
    let system = flag.system();
    let make = |before: &Configuration, call, book: &mut Book| {
        let made = system.make(before, call);
        if let Some(task) = entered_at_end(before, call) {
            book.enter(system.table, task)?;
        }
        book.book(system.table, call, made.answer)?;
        check(&made, book)?;
        Ok((made.after, made.answer))
    };
    random_runs::run_by(system, tasks, 30_000, 5, make).map(|_| ())
}

/// The cells at rest are the image of the book's state.
fn check_rest_of_book(made: &Transition, book: &mut Book) -> Result<(), String> {
    let image = image(book.state as u16, made.after.tasks);
    match made.after.is_at_rest(made.table) && made.after.cells() != image {
        true => Err("the cells at rest are not the image of the book's state".to_string()),
        false => Ok(()),
    }
}

fn check_state_of_book(made: &Transition, book: &mut Book) -> Result<(), String> {
    check_state(book.state, made.after.cells())
}

/// A task alone ends its operations in the order of their applies, so answers, order and rest don't tell when they are entered;
/// with more tasks the answers do.
#[test]
fn a_book_that_enters_an_operation_at_its_end() {
    assert_eq!(run_with_late_book(1, check_rest_of_book), Ok(()));
    let found = |tasks, check| run_with_late_book(tasks, check).unwrap_err();
    for tasks in 1..=3 {
        assert!(found(tasks, check_state_of_book).starts_with("fact 4"));
        assert!(found(tasks, |made, book| book.check_carried(&made.after)).starts_with("carried: the head"));
    }
    for tasks in [2, 3] {
        assert!(found(tasks, |_, _| Ok(())).starts_with("book: Step"));
    }
}
