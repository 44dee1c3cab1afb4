//! What is lent to a window call, for the comparison: every command with every number of records, windows of other lengths,
//! and generated stores, some of them damaged.

use crate::cells::MOST_TASKS;
use crate::random::Random;
use crate::record::Record;
use crate::table::Table;
use crate::table_file::TableFile;
use crate::window::{
    ACKNOWLEDGE, BEGIN, COMMAND, DONE, INTERRUPT, MASK, NOTHING, OPERATION, STATUS, STEP, WINDOW_BYTES,
};
use crate::window_stores::{random_file, store_of_parts, store_of_run};

/// All that is lent to a window call, and the task that it is for.
#[derive(Clone, Debug, PartialEq)]
pub struct Case {
    pub name: String,
    pub file: Vec<u8>,
    pub cells: Vec<u64>,
    pub row: Vec<Record>,
    pub windows: Vec<u8>,
    pub task: usize,
}

/// What is asked about an interrupt line.
pub struct LineCase {
    pub windows: Vec<u8>,
    pub tasks: usize,
    pub task: usize,
}

/// One record more than a row may have.
const MOST_RECORDS: usize = MOST_TASKS + 1;
/// How many cases there are of each command with each number of records.
const CASES_OF_COMMAND: usize = 3;
/// How many cases there are of each length of the windows with each task number.
const CASES_OF_LENGTH: usize = 8;
/// How many cases are generated beside.
pub const RANDOM_CASES: u64 = 30_000;
/// So many windows have more bytes than there are numbers: 8 times this would be 0 if it wrapped.
const UNCOUNTABLE: usize = usize::MAX / WINDOW_BYTES + 1;

pub fn cases() -> impl Iterator<Item = Case> {
    let generated = (0..RANDOM_CASES).map(random_case);
    command_cases().chain(length_cases()).chain(generated)
}

/// Every command with every number of records.
pub fn command_cases() -> impl Iterator<Item = Case> {
    let each = (0..=u8::MAX).flat_map(|command| (0..=MOST_RECORDS).map(move |tasks| (command, tasks)));
    let mut random = Random::new(1);
    repeated(each, CASES_OF_COMMAND).map(move |(command, tasks)| {
        let task = random.below(tasks.max(1));
        let name = format!("command {command} with {tasks} records");
        case(name, tasks, task, command, &mut random)
    })
}

/// Windows around every right length, with tasks that have a window and tasks that have none.
pub fn length_cases() -> impl Iterator<Item = Case> {
    let each = (0..=MOST_RECORDS).flat_map(|tasks| asked(tasks).map(move |asked| (tasks, asked)));
    let mut random = Random::new(2);
    repeated(each, CASES_OF_LENGTH).map(move |(tasks, (length, task))| {
        let name = format!("{length} bytes for {tasks} records, task {task}");
        let command = random.below(5) as u8;
        let mut case = case(name, tasks, task, command, &mut random);
        case.windows.resize(length, command);
        case
    })
}

fn repeated<T>(each: impl Iterator<Item = T> + Clone, times: usize) -> impl Iterator<Item = T> {
    (0..times).flat_map(move |_| each.clone())
}

/// Every length around that of so many windows, with every task number.
fn asked(tasks: usize) -> impl Iterator<Item = (usize, usize)> + Clone {
    let with_tasks = move |length| task_numbers(tasks).into_iter().map(move |task| (length, task));
    lengths(tasks).into_iter().flat_map(with_tasks)
}

/// The right length of so many windows first, then others.
fn lengths(tasks: usize) -> Vec<usize> {
    let right = WINDOW_BYTES * tasks;
    let shorter = [1, WINDOW_BYTES, right].into_iter();
    let mut lengths = vec![right, right + 1, right + WINDOW_BYTES];
    lengths.extend(shorter.filter_map(|less| right.checked_sub(less)));
    lengths
}

/// Task numbers below n, at n and above, also such that 8 times the number would wrap.
fn task_numbers(tasks: usize) -> Vec<usize> {
    let mut numbers = vec![0, tasks, tasks + 1, 256, UNCOUNTABLE, usize::MAX];
    numbers.extend(tasks.checked_sub(1));
    numbers
}

/// Interrupt lines: every interrupt byte with some masks, and windows of every length around the right one.
pub fn line_cases() -> Vec<LineCase> {
    let mut random = Random::new(3);
    let mut cases = Vec::new();
    for interrupt in 0..=u8::MAX {
        for mask in [0, 1, 2, 3, 127, 128, 254, 255] {
            let mut windows = random.bytes(3 * WINDOW_BYTES);
            windows[WINDOW_BYTES + INTERRUPT] = interrupt;
            windows[WINDOW_BYTES + MASK] = mask;
            let (tasks, task) = (3, 1);
            cases.push(LineCase { windows, tasks, task });
        }
    }
    for tasks in (0..=MOST_RECORDS).chain([UNCOUNTABLE, UNCOUNTABLE + 1, usize::MAX]) {
        let near = if tasks > MOST_RECORDS { 1 } else { tasks };
        for (length, task) in asked(near) {
            let windows = random.bytes(length);
            cases.push(LineCase { windows, tasks, task });
        }
    }
    cases
}

/// A generated case; the seed alone decides it.
pub fn random_case(seed: u64) -> Case {
    let mut random = Random::new(seed);
    let tasks = match random.below(20) {
        0 => *random.pick(&[0, MOST_RECORDS]),
        _ => random.between(1, MOST_TASKS),
    };
    let task = match random.below(20) {
        0 => *random.pick(&task_numbers(tasks)),
        _ => random.below(tasks.max(1)),
    };
    let command = match random.below(10) {
        0 => random.byte(),
        1 => *random.pick(&[NOTHING, ACKNOWLEDGE]),
        2..=5 => BEGIN,
        _ => STEP,
    };
    let mut case = case(format!("seed {seed}"), tasks, task, command, &mut random);
    damage(&mut case, &mut random);
    case
}

/// A case with windows of the right length. All their bytes are random, but the task's window, if there is one, has the
/// command given; for a begin it has mostly no done and an operation of the file, and the task is mostly idle.
fn case(name: String, tasks: usize, task: usize, command: u8, random: &mut Random) -> Case {
    let file = random_file(random);
    let flag = TableFile::flag().to_bytes();
    let table = Table::read(&file).or_else(|_| Table::read(&flag));
    let table = table.expect("the flag is served");
    let (cells, mut row) = match random.chance(1, 2) {
        true => store_of_run(&file, tasks, task, random),
        false => store_of_parts(&table, tasks, random),
    };
    let mut windows = random.bytes(WINDOW_BYTES * tasks);
    if task < tasks {
        let window = &mut windows[WINDOW_BYTES * task..][..WINDOW_BYTES];
        window[COMMAND] = command;
        if command == BEGIN && random.chance(4, 5) {
            window[STATUS] &= !DONE;
            window[OPERATION] = random.below(table.operations) as u8;
            if random.chance(3, 4) {
                row[task] = Record::idle(random.below(tasks) as u8);
            }
        }
    }
    Case {
        name,
        file,
        cells,
        row,
        windows,
        task,
    }
}

/// Damages one case in three: a record, some cells or the number of cells.
fn damage(case: &mut Case, random: &mut Random) {
    match random.below(24) {
        0..=2 => damage_record(case, random),
        3..=5 => damage_cells(case, random),
        6 => case.cells.push(0),
        7 => drop(case.cells.pop()),
        _ => {}
    }
}

fn damage_record(case: &mut Case, random: &mut Random) {
    let Some(record) = case.row.get_mut(case.task) else {
        return;
    };
    match random.below(7) {
        0 => record.phase = random.byte(),
        1 => record.operation = random.next() as u16,
        2 => record.priority = random.byte(),
        3 => record.payload = random.next() as u32,
        4 => record.steps = random.next() as u32,
        5 => record.head ^= 1 << random.below(64),
        _ => record.announcement ^= 1 << random.below(64),
    }
}

fn damage_cells(case: &mut Case, random: &mut Random) {
    for cell in &mut case.cells {
        if random.chance(1, 2) {
            *cell ^= 1 << random.below(64);
        }
    }
}

#[cfg(test)]
mod tests {
    use super::*;
    use crate::phase::Phase;
    use crate::refusal::Refusal;
    use crate::window::{line_is_up, serve_window, MOVED};
    use std::collections::BTreeMap;

    /// What comes of a case, in words.
    fn outcome(mut case: Case) -> String {
        let before = case.clone();
        let Case {
            file,
            cells,
            row,
            windows,
            task,
            ..
        } = &mut case;
        if let Err(refusal) = serve_window(file, cells, row, windows, *task) {
            let by_length = before.windows.len() != WINDOW_BYTES * before.row.len();
            let why = if by_length { " by length" } else { "" };
            return format!("refused with {}{why}", refusal.number());
        }
        let place = WINDOW_BYTES * before.task;
        let ended = before.row[before.task].is_pending() && !case.row[before.task].is_pending();
        let moved = [&before.windows, &case.windows].map(|windows| windows[place + STATUS] & MOVED != 0);
        match before.windows[place + COMMAND] {
            NOTHING => "nothing".to_string(),
            BEGIN => "begun".to_string(),
            STEP if ended => format!("ended, moved from {} to {}", moved[0], moved[1]),
            STEP => "running".to_string(),
            _ => "acknowledged".to_string(),
        }
    }

    /// How often each thing comes of the cases.
    fn outcomes() -> BTreeMap<String, usize> {
        let mut counts = BTreeMap::new();
        for case in cases() {
            *counts.entry(outcome(case)).or_default() += 1;
        }
        counts
    }

    #[test]
    fn everything_that_can_come_of_a_call_comes_often() {
        let counts = outcomes();
        assert!(counts.values().all(|&count| count >= 200), "{counts:?}");
        let refused =
            [1, 2, 3, 4, 5, 6, 7, 8, 9, 10, 11, 12, 17, 18].map(|number| format!("refused with {number}"));
        let moved = ["false to false", "false to true", "true to false", "true to true"];
        let ended = moved.map(|moved| format!("ended, moved from {moved}"));
        let others = [
            "refused with 18 by length",
            "nothing",
            "begun",
            "running",
            "acknowledged",
        ]
        .map(str::to_string);
        for name in refused.iter().chain(&ended).chain(&others) {
            assert!(counts.contains_key(name), "{name}");
        }
        let is_served = |name: &str| !name.starts_with("refused");
        let served = counts.iter().filter(|(name, _)| is_served(name));
        let served: usize = served.map(|(_, count)| count).sum();
        assert!(counts.values().sum::<usize>() > 40_000 && served > 10_000);
    }

    #[test]
    fn many_responses_are_larger_than_a_byte() {
        let large = |case: &Case| {
            let record = case.row.get(case.task);
            record
                .is_some_and(|record| record.phase == Phase::Retract.number() && record.payload & 0xff00 != 0)
        };
        let ended = cases()
            .filter(large)
            .map(outcome)
            .filter(|outcome| outcome.starts_with("ended"));
        assert!(ended.count() > 500);
    }

    #[test]
    fn lines_are_up_down_and_refused() {
        let mut counts = BTreeMap::new();
        for case in line_cases() {
            let answer = line_is_up(&case.windows, case.tasks, case.task);
            let name = format!("{:?}", answer.map_err(Refusal::number));
            *counts.entry(name).or_insert(0) += 1;
        }
        assert_eq!(
            Vec::from_iter(counts.keys()),
            ["Err(18)", "Err(7)", "Ok(false)", "Ok(true)"]
        );
        assert!(counts.values().all(|&count| count >= 50), "{counts:?}");
    }
}
