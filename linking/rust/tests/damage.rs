//! Runs whose cells, records or table are damaged by one bit, or whose cells and saved words are by the same bit: every
//! call's answer, cells and row compared with the second program.

mod both;
mod random_calls;
mod smallest;

use std::collections::BTreeSet;

use both::{By, Lent};
use drive_object::{Progress, Task};
use random_calls::random_call;
use reference::random::Random;
use reference::table_file::TableFile;
use smallest::smallest;

const CALLS: usize = 20_000;

/// The calls of a run in which every bit is tried, and its most tasks.
const CALLS_WITH_EACH_BIT: usize = 400;
const TASKS_WITH_EACH_BIT: usize = 3;

const BITS_OF_CELL: usize = 64;
const BITS_OF_RECORD: usize = 256;

/// The first bit and the number of bits of each field of a record; last the bits of the phase in which phases differ.
const FIELDS: [(usize, usize); 8] = [
    (0, 64),
    (64, 64),
    (128, 32),
    (160, 32),
    (192, 16),
    (208, 16),
    (224, 32),
    (224, 7),
];

/// Phases in which an operation ends.
const READ_ONLY: u32 = 1;
const RETRACT: u32 = 12;

fn flip_in_record(record: &mut Task, bit: usize) {
    match bit {
        0..64 => record.head ^= 1 << bit,
        64..128 => record.announcement ^= 1 << (bit - 64),
        128..160 => record.payload ^= 1 << (bit - 128),
        160..192 => record.steps ^= 1 << (bit - 160),
        192..208 => record.operation ^= 1 << (bit - 192),
        208..224 => record.priority ^= 1 << (bit - 208),
        _ => record.phase ^= 1 << (bit - 224),
    }
}

/// Bits are numbered from the first cell on.
fn flip_in_cells(cells: &mut [u64], bit: usize) {
    cells[bit / BITS_OF_CELL] ^= 1 << (bit % BITS_OF_CELL);
}

/// Changes one bit of what is lent.
fn damage(lent: &mut Lent, random: &mut Random) {
    match random.below(4) {
        0 => {
            let at = random.below(lent.file.len());
            lent.file[at] ^= 1 << random.below(8);
        }
        1 => {
            let at = random.below(lent.row.len());
            let (first, bits) = FIELDS[random.below(FIELDS.len())];
            flip_in_record(&mut lent.row[at], first + random.below(bits));
        }
        _ => {
            let bits = BITS_OF_CELL * lent.cells.len();
            flip_in_cells(&mut lent.cells, random.below(bits));
        }
    }
}

/// Makes every call once on a damaged copy; the refusals seen.
fn try_all(lent: &Lent, operations: usize, seen: &mut BTreeSet<u8>) {
    for task in 0..lent.row.len() {
        seen.insert(lent.clone().step(task).map_or_else(|number| number, |_| 0));
        for operation in 0..operations {
            seen.insert(lent.clone().begin(task, operation));
        }
    }
    seen.insert(lent.clone().start());
}

/// The refusals seen in damaged runs of one to eight tasks.
fn damaged_runs(by: By, table: &TableFile) -> BTreeSet<u8> {
    let operations = usize::from(table.operations);
    let mut seen = BTreeSet::new();
    for tasks in 1..=8 {
        let mut random = Random::new(tasks as u64);
        let mut lent = Lent::new(by, table.to_bytes(), tasks);
        assert_eq!(lent.start(), 0);
        for _ in 0..CALLS {
            random_call(&mut lent, operations, &mut random);
            let mut damaged = lent.clone();
            damage(&mut damaged, &mut random);
            try_all(&damaged, operations, &mut seen);
        }
    }
    seen
}

#[test]
fn damaged_runs_answer_as_the_second_program() {
    let answers = BTreeSet::from([0, 1, 2, 3, 4, 9, 10, 11, 12]);
    for by in By::EACH {
        assert_eq!(damaged_runs(by, &TableFile::flag()), answers);
        assert_eq!(damaged_runs(by, &smallest()), answers);
    }
}

/// For a bit of a cell, the same bit of the word that a record has saved of that cell.
fn saved_bit(bit: usize) -> usize {
    match bit / BITS_OF_CELL {
        0 => bit,
        _ => BITS_OF_CELL + bit % BITS_OF_CELL,
    }
}

/// What is lent with each bit of the cells changed, each of a task's record, and each of a cell and of its saved word alike,
/// so that a swap still finds the word that it compares with.
fn with_each_bit(lent: &Lent, task: usize) -> impl Iterator<Item = Lent> + '_ {
    let cells = (0..BITS_OF_CELL * lent.cells.len()).map(|bit| (Some(bit), None));
    let record = (0..BITS_OF_RECORD).map(|bit| (None, Some(bit)));
    let alike = (0..BITS_OF_CELL * lent.cells.len()).map(|bit| (Some(bit), Some(saved_bit(bit))));
    cells
        .chain(record)
        .chain(alike)
        .map(move |(in_cells, in_record)| {
            let mut damaged = lent.clone();
            in_cells.inspect(|bit| flip_in_cells(&mut damaged.cells, *bit));
            in_record.inspect(|bit| flip_in_record(&mut damaged.row[task], *bit));
            damaged
        })
}

/// Makes a task's step once for each way to change a bit; adds the phase in which an operation ended, and whether the state
/// moved.
fn step_with_each_bit(lent: &Lent, task: usize, ends: &mut BTreeSet<(u32, bool)>) {
    for mut damaged in with_each_bit(lent, task) {
        let phase = damaged.row[task].phase;
        if let Ok(Progress::Ended { moved, .. }) = damaged.step(task) {
            ends.insert((phase, moved));
        }
    }
}

/// How operations ended in runs with each bit changed.
fn runs_with_each_bit(by: By, table: &TableFile) -> BTreeSet<(u32, bool)> {
    let mut ends = BTreeSet::new();
    for tasks in 1..=TASKS_WITH_EACH_BIT {
        let mut random = Random::new(tasks as u64);
        let mut lent = Lent::new(by, table.to_bytes(), tasks);
        assert_eq!(lent.start(), 0);
        for _ in 0..CALLS_WITH_EACH_BIT {
            random_call(&mut lent, usize::from(table.operations), &mut random);
            (0..tasks).for_each(|task| step_with_each_bit(&lent, task, &mut ends));
        }
    }
    ends
}

/// Only its phase says that a record reads, so after a change ReadOnly can answer that the state moved; so it can where the
/// head's state becomes one that can't be reached. With one state nothing can move, and every operation reads.
#[test]
fn steps_with_each_bit_changed_answer_as_the_second_program() {
    let each = [READ_ONLY, RETRACT].into_iter();
    let each = each.flat_map(|phase| [(phase, false), (phase, true)]);
    let each = BTreeSet::from_iter(each);
    for by in By::EACH {
        assert_eq!(runs_with_each_bit(by, &TableFile::flag()), each);
        assert_eq!(runs_with_each_bit(by, &TableFile::spare_state()), each);
        assert_eq!(
            runs_with_each_bit(by, &smallest()),
            BTreeSet::from([(READ_ONLY, false)])
        );
    }
}
