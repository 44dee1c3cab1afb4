//! Machines that differ from the right one in one transition. Each must be found, and for the reason that is stated here.

use crate::book::{Book, Status};
use crate::cells::{has_mark, mark_of, Announcement, MOST_TASKS};
use crate::configuration::{Call, Configuration};
use crate::explore::Graph;
use crate::invariant;
use crate::longest::longest_own_steps;
use crate::machine::{self, Answer, Outcome};
use crate::objects::explored_objects;
use crate::phase::Phase;
use crate::random_runs;
use crate::record::Record;
use crate::reply::Reply;
use crate::rules::{Advance, Rules};
use crate::table::Table;
use crate::transition::{Checked, System};
use crate::wrong_builds::{
    advancing, assert_broken, assert_found, explore_by, explored_object, finding, leaving,
};

#[test]
fn a_failed_link_of_a_helped_announcement_tried_again_at_once() {
    let wrong = leaving!(|_, phase, own, outcome, right| match (phase, outcome) {
        (Phase::LinkHelped(other), Outcome::Swapped(false)) => own.with_head_in(Phase::LoadHelped(other)),
        _ => right,
    });
    assert_found(wrong, 2, "potential");
}

#[test]
fn a_failed_clear_not_looked_at_again() {
    let wrong = leaving!(|_, phase, own, outcome, right| match (phase, outcome) {
        (Phase::ClearHead, Outcome::Swapped(false)) => own.bare_in_phase(Phase::Poll),
        _ => right,
    });
    assert_found(wrong, 2, "potential");
}

#[test]
fn a_failed_release_given_up() {
    let wrong = leaving!(|_, phase, own, outcome, right| match (phase, outcome) {
        (Phase::Release(_), Outcome::Swapped(false)) => own.with_head_in(Phase::ClearHead),
        _ => right,
    });
    assert_found(wrong, 2, "invariant: T2");
    assert_broken(wrong, 2, "fact 2");
}

#[test]
fn an_exit_that_retracts_though_its_release_failed() {
    let wrong = leaving!(|_, phase, own, outcome, right| match (phase, outcome) {
        (Phase::ReleaseExit, Outcome::Swapped(false)) => own.with_payload_in(Phase::Retract),
        _ => right,
    });
    assert_found(wrong, 2, "invariant: T2");
    assert_broken(wrong, 2, "fact 2");
}

/// With two tasks it does no harm: only the other one can have changed the head, by a clear. A task whose clear failed may
/// have its mark in the head too, which is seen first.
#[test]
fn an_exit_that_retracts_though_its_clear_or_its_link_failed() {
    let clear = leaving!(|_, phase, own, outcome, right| match (phase, outcome) {
        (Phase::ClearExit, Outcome::Swapped(false)) => own.with_payload_in(Phase::Retract),
        _ => right,
    });
    let link = leaving!(|_, phase, own, outcome, right| match (phase, outcome) {
        (Phase::LinkExit, Outcome::Swapped(false)) => own.with_payload_in(Phase::Retract),
        _ => right,
    });
    for (wrong, fact) in [(clear, "fact 2"), (link, "fact 3")] {
        assert_eq!(finding(wrong, 2), "nothing");
        assert_found(wrong, 3, "invariant: G1");
        assert_broken(wrong, 3, fact);
    }
}

#[test]
fn a_response_applied_as_an_operation() {
    let wrong = leaving!(|_, phase, own, outcome, right| match (phase, content(outcome)) {
        (Phase::LoadPriority, Announcement::Response(reply)) => own
            .with_head_in(Phase::Apply(usize::from(own.priority)))
            .with_payload(u32::from(reply.response)),
        _ => right,
    });
    assert_found(wrong, 2, "invariant: T5");
}

#[test]
fn the_own_operation_passed_by() {
    let wrong = leaving!(|_, phase, own, outcome, right| match (phase, content(outcome)) {
        (Phase::LoadOwn, Announcement::Operation(_)) => own.bare_in_phase(Phase::Poll),
        _ => right,
    });
    assert_found(wrong, 2, "potential");
}

#[test]
fn a_helper_that_goes_on_with_a_response_or_an_empty_cell() {
    let response = leaving!(
        |_, _, own, _, right| match Announcement::decode(own.announcement) {
            Announcement::Response(_) => validating(right),
            _ => right,
        }
    );
    let empty = leaving!(
        |_, _, own, _, right| match Announcement::decode(own.announcement) {
            Announcement::Empty => validating(right),
            _ => right,
        }
    );
    assert_found(response, 2, "invariant: T6");
    assert_found(empty, 2, "invariant: T6");
}

#[test]
fn a_priority_that_goes_on_by_two_tasks() {
    let wrong: Advance = |table, tasks, task, old, outcome| {
        let (right, answer) = machine::advance(table, tasks, task, old, outcome);
        let turned = right.priority != old.priority;
        let priority = match turned {
            true => ((usize::from(right.priority) + 1) % tasks) as u8,
            false => right.priority,
        };
        (Record { priority, ..right }, answer)
    };
    assert_found(advancing(wrong), 2, "potential");
}

#[test]
fn an_apply_tried_again_with_the_old_word() {
    let wrong = leaving!(|_, phase, own, _, right| match (phase, right.known_phase()) {
        (Phase::ReloadApply(_), Phase::Apply(_)) => right.with_head(own.head),
        _ => right,
    });
    assert_found(wrong, 2, "potential");
}

#[test]
fn a_release_tried_again_though_the_mark_is_gone() {
    let wrong = leaving!(|task, phase, own, outcome, right| match (phase, outcome) {
        (Phase::ReloadRelease(other), Outcome::Word(word)) if !has_mark(word, task) => {
            own.with_both_in(Phase::Release(other))
        }
        _ => right,
    });
    assert_found(wrong, 2, "potential");
}

#[test]
fn a_count_that_goes_on_after_the_end() {
    let wrong = leaving!(|_, _, own, _, right| match right.is_pending() {
        true => right,
        false => Record {
            steps: own.steps,
            ..right
        },
    });
    assert_found(wrong, 2, "invariant: forms of the record");
}

/// The exit empties the announcement twice and answers running the first time. The own mark in the saved announcement,
/// which Retract doesn't use, says that this was done.
const EMPTYING_TWICE: Rules = Rules {
    advance: emptying_twice,
    ..Rules::MACHINE
};

fn emptying_twice(
    table: &Table,
    tasks: usize,
    task: usize,
    old: &Record,
    outcome: Outcome,
) -> (Record, Answer) {
    if old.known_phase() != Phase::Retract || has_mark(old.announcement, task) {
        return machine::advance(table, tasks, task, old, outcome);
    }
    let emptied_once = Record {
        steps: old.steps + 1,
        announcement: mark_of(task),
        ..*old
    };
    (emptied_once, Answer::Running)
}

#[test]
fn an_announcement_emptied_twice() {
    assert_found(EMPTYING_TWICE, 2, "invariant: T1");
    let found = explore_by(|made, book| made.check_beside_invariant(book), EMPTYING_TWICE).err();
    assert!(found.is_some_and(|found| found.starts_with("emptied, not ended")));
}

/// The potential takes a task whose announcement is empty for one that waits.
#[test]
fn an_announcement_emptied_twice_raises_the_potential() {
    let flag = explored_object("flag");
    let system = flag.with_rules(EMPTYING_TWICE);
    let make = |before: &Configuration, call| {
        let made = system.make(before, call);
        made.check_potentials()?;
        Ok((made.after, made.answer))
    };
    let found = Graph::explore_by(system, 2, &make).err();
    assert!(found.is_some_and(|found| found.starts_with("potential")));
}

/// The checks but for those of the emptying, of the potential, and of one clause of the invariant.
fn make_without(
    clause: Option<&str>,
    system: System,
    before: &Configuration,
    call: Call,
    book: &mut Book,
) -> Checked {
    let made = system.make(before, call);
    invariant::check_without(system.table, &made.after, clause)?;
    made.check_service(book)?;
    Ok((made.after, made.answer))
}

/// The book that belongs to a point; a task that has emptied its announcement once is done.
fn book_of(point: &Configuration) -> Book {
    let mut book = Book::of(point);
    for (status, record) in book.tasks.iter_mut().zip(point.row()) {
        if record.known_phase() == Phase::Retract {
            *status = Status::done(Reply::of_payload(record.payload), record.steps);
        }
    }
    book
}

/// All schedules of one and two tasks; the longest operation has one own step more than the right one.
#[test]
fn an_announcement_emptied_twice_breaks_no_other_clause_than_t1() {
    let flag = explored_object("flag");
    let system = flag.with_rules(EMPTYING_TWICE);
    let explore_without = |clause, tasks| {
        let make = |before: &Configuration, call| {
            let mut book = book_of(before);
            let (after, answer) = make_without(clause, system, before, call, &mut book)?;
            book.agrees_with_book(&book_of(&after))?;
            Ok((after, answer))
        };
        Graph::explore_by(system, tasks, &make)
    };
    for (tasks, longest) in [(1, 18), (2, 125)] {
        let found = explore_without(None, tasks).err();
        assert!(found.is_some_and(|found| found.starts_with("invariant: T1")));
        let graph = explore_without(Some("T1"), tasks).unwrap();
        assert_eq!(longest_own_steps(&graph, 0), Ok(longest));
    }
}

/// Long schedules of up to eight tasks, with a whole book and a check of its order.
#[test]
fn an_announcement_emptied_twice_keeps_book_order_rest_image_count_and_ceiling() {
    for object in &explored_objects() {
        let system = object.with_rules(EMPTYING_TWICE);
        let make = |before: &Configuration, call, book: &mut Book| {
            make_without(Some("T1"), system, before, call, book)
        };
        for tasks in 1..=MOST_TASKS {
            let findings = random_runs::run_by(system, tasks, 30_000, 5, make).unwrap();
            assert!(findings.ended > 200, "{tasks} tasks: {}", findings.ended);
        }
    }
}

/// The announcement that was read, an empty one if none was.
fn content(outcome: Outcome) -> Announcement {
    match outcome {
        Outcome::Word(word) => Announcement::decode(word),
        _ => Announcement::Empty,
    }
}

/// A helper that is about to take its new mark away validates instead.
fn validating(right: Record) -> Record {
    match right.known_phase() {
        Phase::Release(other) => right.with_phase(Phase::Validate(other)),
        _ => right,
    }
}
