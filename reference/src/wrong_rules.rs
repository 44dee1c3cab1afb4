//! Wrong builds of the machine. The explorer must find each of them, and for the reason that is stated here.

use crate::cells::has_mark;
use crate::machine::{self, Answer, Outcome};
use crate::phase::Phase;
use crate::record::Record;
use crate::rules::Advance;
use crate::table::Table;
use crate::wrong_builds::{self, advancing, explore_by, Check};

type Step = (Record, Answer);

fn assert_found(advance: Advance, reason: &str) {
    wrong_builds::assert_found(advancing(advance), 2, reason);
}

/// The right step, its new phase replaced.
fn redirected(table: &Table, tasks: usize, task: usize, old: &Record, outcome: Outcome, to: Phase) -> Step {
    let (record, answer) = machine::advance(table, tasks, task, old, outcome);
    (record.bare_in_phase(to).with_payload(record.payload), answer)
}

#[test]
fn a_failed_link_that_does_not_look_for_the_response() {
    fn wrong(table: &Table, tasks: usize, task: usize, old: &Record, outcome: Outcome) -> Step {
        match (old.known_phase(), outcome) {
            (Phase::LinkHead, Outcome::Swapped(false)) => {
                redirected(table, tasks, task, old, outcome, Phase::LoadHead)
            }
            _ => machine::advance(table, tasks, task, old, outcome),
        }
    }
    assert_found(wrong, "potential");
}

#[test]
fn an_operation_that_is_running_for_ever() {
    fn wrong(table: &Table, tasks: usize, task: usize, old: &Record, outcome: Outcome) -> Step {
        let (record, answer) = machine::advance(table, tasks, task, old, outcome);
        match old.known_phase() {
            Phase::Retract => (record, Answer::Running),
            _ => (record, answer),
        }
    }
    assert_found(wrong, "emptied, not ended");
}

#[test]
fn an_exit_that_waits_for_the_holder() {
    fn wrong(table: &Table, tasks: usize, task: usize, old: &Record, outcome: Outcome) -> Step {
        let right = machine::advance(table, tasks, task, old, outcome);
        match right.0.known_phase() {
            Phase::LinkExit => redirected(table, tasks, task, old, outcome, Phase::LoadExit),
            _ => right,
        }
    }
    assert_found(wrong, "potential");
}

#[test]
fn an_invented_count() {
    fn wrong(table: &Table, tasks: usize, task: usize, old: &Record, outcome: Outcome) -> Step {
        let (record, answer) = machine::advance(table, tasks, task, old, outcome);
        let invented = match answer {
            Answer::Running => Answer::Running,
            Answer::Ended {
                response,
                moved,
                steps,
            } => Answer::Ended {
                response,
                moved,
                steps: steps + 1,
            },
        };
        (record, invented)
    }
    assert_found(wrong, "book");
}

#[test]
fn a_constant_response() {
    fn wrong(table: &Table, tasks: usize, task: usize, old: &Record, outcome: Outcome) -> Step {
        let (record, answer) = machine::advance(table, tasks, task, old, outcome);
        let constant = match answer {
            Answer::Running => Answer::Running,
            Answer::Ended { moved, steps, .. } => Answer::Ended {
                response: 0,
                moved,
                steps,
            },
        };
        (record, constant)
    }
    assert_found(wrong, "book");
}

#[test]
fn a_changing_operation_that_ends_in_its_first_step() {
    fn wrong(table: &Table, tasks: usize, task: usize, old: &Record, outcome: Outcome) -> Step {
        let (record, answer) = machine::advance(table, tasks, task, old, outcome);
        match old.known_phase() {
            Phase::Announce => (
                Record::idle(record.priority),
                Answer::Ended {
                    response: 0,
                    moved: true,
                    steps: 1,
                },
            ),
            _ => (record, answer),
        }
    }
    assert_found(wrong, "invariant: T1");
    let emptied: Check = |made, _| made.check_emptied_exactly_if_ended();
    let found = explore_by(emptied, advancing(wrong)).err();
    assert!(found.is_some_and(|found| found.starts_with("ended, not emptied")));
}

#[test]
fn a_priority_that_does_not_advance() {
    fn wrong(table: &Table, tasks: usize, task: usize, old: &Record, outcome: Outcome) -> Step {
        let (record, answer) = machine::advance(table, tasks, task, old, outcome);
        let priority = old.priority;
        (Record { priority, ..record }, answer)
    }
    assert_found(wrong, "potential");
}

#[test]
fn a_hand_over_without_a_look_at_the_head() {
    fn wrong(table: &Table, tasks: usize, task: usize, old: &Record, outcome: Outcome) -> Step {
        let (record, answer) = machine::advance(table, tasks, task, old, outcome);
        match record.known_phase() {
            Phase::Validate(other) => (record.with_phase(Phase::HandOver(other)), answer),
            _ => (record, answer),
        }
    }
    assert_found(wrong, "invariant: T7");
}

#[test]
fn a_hand_over_given_up_while_the_mark_stands() {
    fn wrong(table: &Table, tasks: usize, task: usize, old: &Record, outcome: Outcome) -> Step {
        let (record, answer) = machine::advance(table, tasks, task, old, outcome);
        match (old.known_phase(), outcome) {
            (Phase::ReloadHandOver(_), Outcome::Word(word)) if has_mark(word, task) => {
                (record.bare_in_phase(Phase::ClearHead).with_head(old.head), answer)
            }
            _ => (record, answer),
        }
    }
    assert_found(wrong, "invariant: T2");
    wrong_builds::assert_broken(advancing(wrong), 2, "fact 2");
}
