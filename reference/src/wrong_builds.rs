//! What is found about wrong builds of the machine: the exploration of two tasks must find each of them, for the reason
//! that is stated with it; random runs of three, where two tasks can't show it.

use crate::book::Book;
use crate::configuration::{Call, Configuration};
use crate::explore::Graph;
use crate::mid_work::check_cells;
use crate::objects::{explored_objects, Object};
use crate::random_runs;
use crate::rules::{Advance, Plan, Rules};
use crate::transition::{Checked, System, Transition};

/// How many schedules of three tasks are tried, and how long they are.
const SCHEDULES: u64 = 4;
const CALLS: usize = 100_000;

/// The machine with another way to go on after an access.
pub fn advancing(advance: Advance) -> Rules {
    Rules {
        advance,
        ..Rules::MACHINE
    }
}

/// The machine with other accesses.
pub fn planning(plan: Plan) -> Rules {
    Rules {
        plan,
        ..Rules::MACHINE
    }
}

/// The right machine, but for the record that it leaves. A rule is given the task, its phase, its record with this step
/// counted, what the access gave back, and the right record.
macro_rules! leaving {
    ($rule:expr) => {
        $crate::wrong_builds::advancing(|table, tasks, task, old, outcome| {
            let rule: fn(
                usize,
                $crate::phase::Phase,
                $crate::record::Record,
                $crate::machine::Outcome,
                $crate::record::Record,
            ) -> $crate::record::Record = $rule;
            let (right, answer) = $crate::machine::advance(table, tasks, task, old, outcome);
            let counted = $crate::record::Record {
                steps: old.steps + 1,
                ..*old
            };
            (rule(task, old.known_phase(), counted, outcome, right), answer)
        })
    };
}
pub(crate) use leaving;

pub fn explored_object(name: &str) -> Object {
    let mut objects = explored_objects().into_iter();
    objects
        .find(|object| object.name == name)
        .expect("an explored object")
}

/// What is found about the rules with so many tasks, over an explored object.
pub fn finding_on(object: &str, rules: Rules, tasks: usize) -> String {
    let object = explored_object(object);
    let system = object.with_rules(rules);
    let found = match tasks {
        2 => Graph::explore(system, tasks).err(),
        _ => (0..SCHEDULES).find_map(|seed| random_runs::run(system, tasks, CALLS, seed).err()),
    };
    found.unwrap_or_else(|| "nothing".to_string())
}

pub fn finding(rules: Rules, tasks: usize) -> String {
    finding_on("flag", rules, tasks)
}

pub fn assert_found(rules: Rules, tasks: usize, reason: &str) {
    let found = finding(rules, tasks);
    assert!(found.starts_with(reason), "{found}");
}

/// A check of a call, with the book that was kept up to it.
pub type Check = fn(&Transition, &mut Book) -> Result<(), String>;

/// Makes a call and has it checked by one check alone.
fn make_by(check: Check, system: System, before: &Configuration, call: Call, book: &mut Book) -> Checked {
    let made = system.make(before, call);
    check(&made, book)?;
    Ok((made.after, made.answer))
}

/// All schedules of two tasks on the flag, with one check alone.
pub fn explore_by(check: Check, rules: Rules) -> Result<Graph, String> {
    let flag = explored_object("flag");
    let system = flag.with_rules(rules);
    let make = |before: &Configuration, call| make_by(check, system, before, call, &mut Book::of(before));
    Graph::explore_by(system, 2, &make)
}

/// Long schedules of three tasks on the flag, with one check alone and that of the book's order.
pub fn run_by(check: Check, rules: Rules) -> Result<(), String> {
    let flag = explored_object("flag");
    let system = flag.with_rules(rules);
    let make = |before: &Configuration, call, book: &mut Book| make_by(check, system, before, call, book);
    (0..SCHEDULES).try_for_each(|seed| random_runs::run_by(system, 3, CALLS, seed, make).map(|_| ()))
}

/// Facts 1 to 3 alone, by what was pending before the call, by the call and by its answer, be that right or wrong.
pub fn check_facts(made: &Transition, book: &mut Book) -> Result<(), String> {
    let mut pending = book.pending;
    pending.note(made.call, made.answer);
    let _right_or_wrong = made.check_answer(book);
    book.pending = pending;
    check_cells(made.table, &pending, made.after.cells())
}

/// With so many tasks a fact of mid-work finds the build, though nothing else is checked.
pub fn assert_broken(rules: Rules, tasks: usize, fact: &str) {
    let found = match tasks {
        2 => explore_by(check_facts, rules).err(),
        _ => run_by(check_facts, rules).err(),
    };
    assert!(
        found.as_ref().is_some_and(|found| found.starts_with(fact)),
        "{found:?}"
    );
}
