//! The steps of a task between two points of a run, made again to see each access.

use crate::configuration::{Call, Configuration};
use crate::machine::{self, Answer};
use crate::rules::Rules;
use crate::table::Table;
use crate::trace_event::{Event, Step};

pub fn at_rest(point: &Configuration) -> Event {
    Event::AtRest { state: point.state() }
}

/// Makes a task's steps until the last point is reached, at which the bench has arrived by the same steps.
pub fn steps_between(
    table: &Table,
    task: usize,
    mut point: Configuration,
    last: &Configuration,
) -> Vec<Event> {
    let mut events = Vec::new();
    while point != *last {
        events.extend(step(table, task, &mut point));
    }
    events
}

/// One step and what ends with it.
fn step(table: &Table, task: usize, point: &mut Configuration) -> Vec<Event> {
    let before = *point;
    let answer = point.make(Rules::MACHINE, table, Call::Step { task });
    let answer = answer.expect("the bench has made this step");
    let mut events = vec![Event::Stepped(next_step(table, task, before))];
    if let Some(Answer::Ended {
        response,
        moved,
        steps,
    }) = answer
    {
        let operation = before.record(task).operation;
        events.push(Event::Ended {
            task,
            operation,
            response,
            moved,
            steps,
        });
        if !before.is_at_rest(table) && point.is_at_rest(table) {
            events.push(at_rest(point));
        }
    }
    events
}

/// The next step of a task with an operation pending, made on a copy of the point.
fn next_step(table: &Table, task: usize, mut point: Configuration) -> Step {
    let record = *point.record(task);
    let access = machine::plan(table, task, &record);
    let before = point.cells()[access.cell];
    let (cells, _) = point.parts_mut();
    let outcome = machine::perform(cells, access);
    Step {
        task,
        number: record.steps + 1,
        phase: record.known_phase(),
        access,
        outcome,
        before,
        after: cells[access.cell],
    }
}
