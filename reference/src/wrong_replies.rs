//! Machines that answer wrongly whether the state moved, or carry that wrongly in cells and records. Each must be found,
//! and for the reason that is stated here.

use crate::book::Book;
use crate::cells::MOST_TASKS;
use crate::configuration::Configuration;
use crate::explore::Graph;
use crate::machine::{self, Access, Action, Answer};
use crate::phase::Phase;
use crate::random_runs;
use crate::record::Record;
use crate::rules::Rules;
use crate::table::Table;
use crate::wrong_builds::{advancing, assert_found, explored_object, finding, finding_on, planning};

const HEAD_MOVED: u64 = 1 << 28;
const ANNOUNCEMENT_MOVED: u64 = 1 << 24;

/// The right machine, but for the words that its swaps write. A rule is given the table, the phase, the record and the
/// right word.
macro_rules! writing {
    ($rule:expr) => {
        planning(|table, task, record| {
            let rule: fn(&Table, Phase, &Record, u64) -> u64 = $rule;
            let right = machine::plan(table, task, record);
            match right.action {
                Action::Swap { old, new } => {
                    let new = rule(table, record.known_phase(), record, new);
                    let action = Action::Swap { old, new };
                    Access { action, ..right }
                }
                _ => right,
            }
        })
    };
}

/// The right machine, but for whether it says that the state moved. A rule is given the phase and the right answer.
macro_rules! saying {
    ($rule:expr) => {
        advancing(|table, tasks, task, old, outcome| {
            let rule: fn(Phase, bool) -> bool = $rule;
            let (record, mut answer) = machine::advance(table, tasks, task, old, outcome);
            if let Answer::Ended { moved, .. } = &mut answer {
                *moved = rule(old.known_phase(), *moved);
            }
            (record, answer)
        })
    };
}

/// The right machine, but on the way from a phase to the exit the moved bit is lost.
macro_rules! losing_after {
    ($phase:pat) => {
        advancing(|table, tasks, task, old, outcome| {
            let (record, answer) = machine::advance(table, tasks, task, old, outcome);
            let lost = matches!(old.known_phase(), $phase) && record.known_phase() == Phase::LoadExit;
            match lost {
                true => (record.with_payload(record.payload & 0xffff), answer),
                false => (record, answer),
            }
        })
    };
}

fn apply_without_the_bit() -> Rules {
    writing!(|_, phase, _, word| match phase {
        Phase::Apply(_) => word & !HEAD_MOVED,
        _ => word,
    })
}

fn hand_over_without_the_bit() -> Rules {
    writing!(|_, phase, _, word| match phase {
        Phase::HandOver(_) => word & !ANNOUNCEMENT_MOVED,
        _ => word,
    })
}

fn inverted_at_apply_and_back_at_hand_over() -> Rules {
    writing!(|_, phase, _, word| match phase {
        Phase::Apply(_) => word ^ HEAD_MOVED,
        Phase::HandOver(_) => word ^ ANNOUNCEMENT_MOVED,
        _ => word,
    })
}

fn moved_by_the_operation() -> Rules {
    writing!(|table, phase, record, word| match phase {
        Phase::Apply(_) if table.is_changing(record.payload as usize) => word | HEAD_MOVED,
        _ => word,
    })
}

#[test]
fn an_apply_that_writes_no() {
    assert_found(apply_without_the_bit(), 2, "carried: the head");
}

#[test]
fn a_hand_over_that_writes_no() {
    assert_found(hand_over_without_the_bit(), 2, "invariant: G1");
}

#[test]
fn a_yes_for_every_changing_operation() {
    assert_found(moved_by_the_operation(), 2, "carried: the head");
}

#[test]
fn a_bit_lost_between_the_own_announcement_and_the_exit() {
    assert_found(losing_after!(Phase::Poll), 2, "invariant: T1");
    assert_found(losing_after!(Phase::LoadOwn), 2, "invariant: T1");
}

#[test]
fn a_bit_lost_on_the_way_out() {
    assert_found(
        losing_after!(Phase::LinkExit | Phase::ClearExit | Phase::ReleaseExit),
        2,
        "invariant: T1",
    );
}

#[test]
fn a_clear_that_keeps_the_bit() {
    let loop_clear = writing!(|_, phase, record, word| match phase {
        Phase::ClearHead => word | record.head & HEAD_MOVED,
        _ => word,
    });
    let exit_clear = writing!(|_, phase, record, word| match phase {
        Phase::ClearExit => word | record.head & HEAD_MOVED,
        _ => word,
    });
    for wrong in [loop_clear, exit_clear] {
        assert_found(wrong, 2, "invariant: forms of the cells");
    }
}

#[test]
fn an_end_that_says_the_opposite_or_always_the_same() {
    let opposite = saying!(|phase, moved| moved ^ (phase == Phase::Retract));
    let always_yes = saying!(|phase, moved| moved || phase == Phase::Retract);
    let always_no = saying!(|phase, moved| moved && phase != Phase::Retract);
    for wrong in [opposite, always_yes, always_no] {
        assert_found(wrong, 2, "book: Step");
    }
}

#[test]
fn a_reading_step_that_always_says_yes() {
    assert_found(
        saying!(|phase, moved| moved || phase == Phase::ReadOnly),
        2,
        "book: Step",
    );
}

/// In a run it is right: begin lets only reading operations read. The comparison of damaged runs tells the two apart.
#[test]
fn a_reading_step_that_always_says_no_is_not_found() {
    let wrong = saying!(|phase, moved| moved && phase != Phase::ReadOnly);
    assert_eq!(finding(wrong, 2), "nothing");
}

/// The flag's response is the old state; on the switch it tells nothing.
#[test]
fn a_yes_by_the_response() {
    let wrong = writing!(|table, phase, record, word| match phase {
        Phase::Apply(_) => {
            let (state, operation) = machine::entry_of_apply(record);
            let entry = table.entry(state, operation);
            word & !HEAD_MOVED | u64::from(entry.next != entry.response) << HEAD_MOVED.trailing_zeros()
        }
        _ => word,
    });
    assert_eq!(finding(wrong, 2), "nothing");
    let found = finding_on("switch", wrong, 2);
    assert!(found.starts_with("carried: the head"), "{found}");
}

/// What is found if answers and what the cells carry are checked, and nothing else.
fn finding_in_cells(rules: Rules) -> String {
    let flag = explored_object("flag");
    let system = flag.with_rules(rules);
    let make = |before: &Configuration, call| {
        let made = system.make(before, call);
        let mut book = Book::of(before);
        made.check_service(&mut book)?;
        book.check_carried(&made.after)?;
        Ok((made.after, made.answer))
    };
    let found = Graph::explore_by(system, 2, &make).err();
    found.unwrap_or_else(|| "nothing".to_string())
}

#[test]
fn what_the_cells_carry_is_checked_without_the_invariant() {
    for (wrong, cell) in [
        (apply_without_the_bit(), "head"),
        (hand_over_without_the_bit(), "announcement"),
        (inverted_at_apply_and_back_at_hand_over(), "head"),
        (moved_by_the_operation(), "head"),
    ] {
        let found = finding_in_cells(wrong);
        assert!(found.starts_with(&format!("carried: the {cell}")), "{found}");
    }
}

/// Its answers are all right: only who looks at the cells finds it.
#[test]
fn a_bit_inverted_at_apply_and_back_at_hand_over() {
    let rules = inverted_at_apply_and_back_at_hand_over();
    assert_found(rules, 2, "carried: the head");
    let switch = explored_object("switch");
    let system = switch.with_rules(rules);
    let make = |before: &Configuration, call, book: &mut Book| {
        let made = system.make(before, call);
        made.check_service(book)?;
        Ok((made.after, made.answer))
    };
    for tasks in 1..=MOST_TASKS {
        let findings = random_runs::run_by(system, tasks, 30_000, 5, make).unwrap();
        assert!(findings.ended > 200, "{tasks} tasks: {}", findings.ended);
    }
}
