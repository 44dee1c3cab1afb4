//! Every refusal of every call, alone and with others, compared with the second program.

mod both;
mod files;
mod smallest;

use std::collections::BTreeSet;

use both::{By, Lent};
use drive_object::{Refusal, Shape, Task};
use files::files;
use reference::refusal;
use reference::table::Table;
use reference::table_file::TableFile;

fn pending(phase: u32) -> Task {
    Task {
        phase,
        ..Task::default()
    }
}

fn saved(phase: u32, head: u64, announcement: u64) -> Task {
    Task {
        head,
        announcement,
        ..pending(phase)
    }
}

/// Records in form and out of form, for one task and more.
fn records() -> Vec<Task> {
    [plain_records(), records_that_moved(), records_held()].concat()
}

/// Records with the moved bit of a saved word, in LinkHead, HandOver and Apply of a set, or of the payload, in Retract. An Apply
/// that finds a holder in its saved head is in form, though no run leads to it.
fn records_that_moved() -> Vec<Task> {
    let leaving = |payload| Task {
        payload,
        ..pending(12)
    };
    let applying = |head| Task {
        payload: 1,
        ..saved(16, head, 0)
    };
    vec![
        saved(5, 0x1000_0000, 0),
        saved(5, 0x1100_0000, 0),
        saved(56, 0, 0x100_0100),
        saved(56, 0, 0x100_0200),
        applying(0x100_0000),
        applying(0x1100_0000),
        leaving(0x1_0001),
        leaving(0xfffe_0001),
    ]
}

/// Records in LinkHead whose saved head has a holder that is above one task and within two, or above all.
fn records_held() -> Vec<Task> {
    [0x200_0000, 0x900_0000].map(|head| saved(5, head, 0)).into()
}

fn plain_records() -> Vec<Task> {
    let idle = Task::default();
    vec![
        idle,
        Task { steps: 1, ..idle },
        Task { priority: 9, ..idle },
        pending(1),
        pending(2),
        pending(15),
        pending(16),
        Task {
            payload: 1,
            ..pending(16)
        },
        Task {
            payload: 3,
            ..pending(16)
        },
        Task {
            head: 0x1_0000,
            ..pending(5)
        },
        Task {
            operation: 3,
            ..pending(2)
        },
        Task {
            steps: 1_000,
            ..pending(3)
        },
        pending(41),
        pending(88),
    ]
}

const NUMBERS_OF_TASKS: [usize; 5] = [0, 1, 2, 8, 9];

/// Words in form and out of form, as a head and as an announcement.
const WORDS: [u64; 17] = [
    0,
    0x100,
    0x300,
    0x1_0100,
    0x100_0000,
    0x100_0100,
    0x100_0200,
    0x100_0300,
    0x1ff_0200,
    0x200_0000,
    0x200_0200,
    0x900_0000,
    0x1000_0000,
    0x1100_0000,
    0x1101_0000,
    0x2100_0000,
    1 << 63,
];

/// Every file with every record in every row, the cells too few, right, too many or out of form.
fn for_all_lent(by: By, mut serve: impl FnMut(&Lent)) {
    for file in files() {
        for tasks in NUMBERS_OF_TASKS {
            for record in records() {
                let mut lent = Lent::new(by, file.clone(), tasks);
                lent.row.fill(record);
                for cells in [tasks, tasks + 1, tasks + 2] {
                    for word in WORDS {
                        lent.cells = vec![word; cells];
                        serve(&lent);
                    }
                }
            }
        }
    }
}

const TASK_NUMBERS: [usize; 4] = [0, 1, 8, usize::MAX];
const OPERATION_NUMBERS: [usize; 5] = [0, 1, 2, 3, usize::MAX];

#[test]
fn check_answers_as_the_second_program() {
    let mut seen = BTreeSet::new();
    for file in files() {
        let ours = drive_object::check(&file);
        let theirs = Table::check(&file).map(|table| Shape {
            states: table.states as u16,
            operations: table.operations as u16,
            start: table.start as u16,
        });
        assert_eq!(
            ours.map_err(Refusal::number),
            theirs.map_err(refusal::Refusal::number)
        );
        seen.insert(ours.map_or_else(Refusal::number, |_| 0));
    }
    assert_eq!(seen, BTreeSet::from([0, 1, 2, 3, 4]));
}

#[test]
fn start_answers_as_the_second_program() {
    let mut seen = BTreeSet::new();
    for_all_lent(By::Row, |lent| {
        seen.insert(lent.clone().start());
    });
    assert_eq!(seen, BTreeSet::from([0, 1, 2, 3, 4, 5, 6]));
}

#[test]
fn begin_answers_as_the_second_program() {
    for by in By::EACH {
        let mut seen = BTreeSet::new();
        for_all_lent(by, |lent| {
            for task in TASK_NUMBERS {
                for operation in OPERATION_NUMBERS {
                    seen.insert(lent.clone().begin(task, operation));
                }
            }
        });
        assert_eq!(seen, BTreeSet::from([0, 1, 2, 3, 4, 5, 7, 8, 9, 11]));
    }
}

#[test]
fn step_answers_as_the_second_program() {
    for by in By::EACH {
        let mut seen = BTreeSet::new();
        for_all_lent(by, |lent| {
            for task in TASK_NUMBERS {
                seen.insert(lent.clone().step(task).map_or_else(|number| number, |_| 0));
            }
        });
        assert_eq!(seen, BTreeSet::from([0, 1, 2, 3, 4, 5, 6, 7, 10, 11, 12]));
    }
}

/// The second program has these fields in a byte, so they are not compared with it.
#[test]
fn wide_phases_and_priorities_are_out_of_form() {
    let flag = TableFile::flag().to_bytes();
    for record in [
        Task {
            phase: 256 + 2,
            ..Task::default()
        },
        Task {
            phase: u32::MAX,
            ..Task::default()
        },
        Task {
            priority: 256,
            ..Task::default()
        },
    ] {
        let mut row = [record];
        assert_eq!(drive_object::begin(&flag, &mut row, 0, 1), Err(Refusal::Record));
        assert_eq!(
            drive_object::step(&flag, &mut [0, 0], &mut row, 0),
            Err(Refusal::Record)
        );
        assert_eq!(row, [record]);
        let mut own = record;
        assert_eq!(
            drive_object::begin_record(&flag, 1, 0, 1, &mut own),
            Err(Refusal::Record)
        );
        assert_eq!(
            drive_object::step_record(&flag, &mut [0, 0], 1, 0, &mut own),
            Err(Refusal::Record)
        );
        assert_eq!(own, record);
    }
}
