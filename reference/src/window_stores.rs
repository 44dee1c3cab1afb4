//! Files, cells and rows that are lent to generated window calls.

use crate::cells::{Announcement, Head, Holder, MOST_TASKS};
use crate::file_calls;
use crate::machine::Answer;
use crate::objects::explored_files;
use crate::phase::Phase;
use crate::random::Random;
use crate::record::Record;
use crate::reply::Reply;
use crate::table::Table;
use crate::table_cases::{random_case as any_table, random_table};

/// Mostly a good file; else one with a next state out of range, of another length, or damaged in any way.
pub fn random_file(random: &mut Random) -> Vec<u8> {
    let mut table = match random.below(3) {
        0 => random_table(random),
        _ => random.pick(&explored_files()).clone(),
    };
    match random.below(16) {
        0 | 1 => return any_table(random.next()).file,
        2 | 3 => {
            let entry = random.below(table.entries.len() / 2);
            table.entries[2 * entry] |= 0xc0;
        }
        _ => {}
    }
    let mut file = table.to_bytes();
    match random.below(16) {
        0 => file.truncate(random.below(file.len())),
        1 => drop(file.remove(0)),
        _ => {}
    }
    file
}

/// Cells and row after some calls of a run. Often the task's next step ends its operation.
pub fn store_of_run(file: &[u8], tasks: usize, task: usize, random: &mut Random) -> (Vec<u64>, Vec<Record>) {
    let (mut cells, mut row) = (vec![0; tasks + 1], vec![Record::default(); tasks]);
    if tasks == 0 || file_calls::start(file, &mut cells, &mut row).is_err() {
        return (cells, row);
    }
    for _ in 0..random.below(80) {
        let (caller, operation) = (random.below(tasks), random.below(4));
        if file_calls::begin(file, &mut row, caller, operation).is_err() {
            let _ = file_calls::step(file, &mut cells, &mut row, caller);
        }
    }
    let _ = file_calls::begin(file, &mut row, task, random.below(4));
    let most = *random.pick(&[0, 3, 30, 1_000]);
    for _ in 0..most {
        let before = (cells.clone(), row.clone());
        match file_calls::step(file, &mut cells, &mut row, task) {
            Ok(Answer::Running) => {}
            _ => return before,
        }
    }
    (cells, row)
}

/// Cells and row of parts that are in form each, though no run need lead to them.
pub fn store_of_parts(table: &Table, tasks: usize, random: &mut Random) -> (Vec<u64>, Vec<Record>) {
    let mut cells = vec![any_head(table, tasks, random)];
    cells.extend((0..tasks).map(|_| any_announcement(table, tasks, random)));
    let row = (0..tasks).map(|_| any_record(table, tasks, random)).collect();
    (cells, row)
}

fn any_marks(tasks: usize, random: &mut Random) -> u64 {
    let marks = random.next() & random.next() & 0xff;
    marks & ((1 << tasks) - 1)
}

fn any_reply(random: &mut Random) -> Reply {
    Reply {
        response: u16::from(random.byte()),
        moved: random.chance(1, 2),
    }
}

fn any_head(table: &Table, tasks: usize, random: &mut Random) -> u64 {
    let holder = (tasks > 0 && random.chance(1, 2)).then(|| Holder {
        task: random.below(tasks.min(MOST_TASKS)),
        reply: any_reply(random),
    });
    let state = random.below(table.states) as u16;
    Head { state, holder }.encode() | any_marks(tasks, random)
}

fn any_announcement(table: &Table, tasks: usize, random: &mut Random) -> u64 {
    let announcement = match random.below(3) {
        0 => Announcement::Empty,
        1 => Announcement::Operation(random.below(table.operations) as u16),
        _ => Announcement::Response(any_reply(random)),
    };
    announcement.encode() | any_marks(tasks, random)
}

/// A record of any phase, often one whose step ends. Some payloads have a response that is larger than a byte.
fn any_record(table: &Table, tasks: usize, random: &mut Random) -> Record {
    let priority = random.below(tasks) as u8;
    let phase = match random.below(6) {
        0 => return Record::idle(priority),
        1 | 2 => Phase::Retract,
        3 => Phase::ReadOnly,
        _ => Phase::of_number(random.between(1, 87) as u8).unwrap_or(Phase::Poll),
    };
    let payload = match phase.keeps_operation() {
        true => random.below(table.operations) as u32,
        false => random.next() as u32 & *random.pick(&[0x1_00ff, 0x1_ffff, u32::MAX]),
    };
    Record {
        phase: phase.number(),
        operation: random.below(table.operations) as u16,
        priority,
        payload,
        head: any_head(table, tasks, random),
        announcement: any_announcement(table, tasks, random),
        steps: random.below(1_100) as u32,
    }
}
