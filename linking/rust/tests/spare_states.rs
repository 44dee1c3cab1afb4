//! States that can't be reached from the start: begin looks at their entries too, an operation that moves no other state
//! reads, and a head that was loaded with one is served. What must come is said here; answer, cells and row are compared
//! with the second program.

mod both;
mod random_calls;

use both::{By, Lent};
use drive_object::{Progress, Task};
use random_calls::random_call;
use reference::random::Random;
use reference::reach_cases::{moves_unreachable_alone, moving_out_of_reach, random_reach_table};
use reference::table_file::TableFile;

/// Phases of docs/RECORDS.md: none pending, the one step of a reading operation, the first of a changing one, and no phase.
const IDLE: u32 = 0;
const READ_ONLY: u32 = 1;
const ANNOUNCE: u32 = 2;
const NO_PHASE: u32 = 15;

fn in_phase(phase: u32) -> Task {
    Task {
        phase,
        ..Task::default()
    }
}

/// Makes all begins for records that are idle, that have an operation pending, and that are out of form. Unless 5, 7 or 8
/// holds, each of the three must bring its answer.
fn begin_for_all_records(table: &TableFile, answers: [u8; 3]) {
    for by in By::EACH {
        for (phase, answer) in [IDLE, ANNOUNCE, NO_PHASE].into_iter().zip(answers) {
            begin_all(by, table, in_phase(phase), answer);
        }
    }
}

/// Begins every operation, and numbers that are none, for tasks of rows that are too short, right and too long. The answer
/// is the first of 5, 7 and 8 that holds, and else `otherwise`.
fn begin_all(by: By, table: &TableFile, record: Task, otherwise: u8) {
    let operations = usize::from(table.operations);
    for tasks in [0, 1, 8, 9] {
        let mut lent = Lent::new(by, table.to_bytes(), tasks);
        lent.row.fill(record);
        for task in [0, 7, 8, usize::MAX] {
            for operation in (0..operations + 2).chain([usize::MAX]) {
                let expected = match (tasks, task, operation) {
                    (0 | 9, _, _) => 5,
                    _ if task >= tasks => 7,
                    _ if operation >= operations => 8,
                    _ => otherwise,
                };
                assert_eq!(lent.clone().begin(task, operation), expected);
            }
        }
    }
}

/// The flag; a table of three states with one out of reach, from each start; one of 254 states and 32 operations with all
/// but the start out of reach.
fn tables() -> Vec<TableFile> {
    let from = |start| TableFile {
        start,
        ..TableFile::spare_state()
    };
    let entries: Vec<(u8, u8)> = (0..254u8)
        .flat_map(|state| (0..32u8).map(move |operation| (state, operation)))
        .collect();
    let wide = TableFile::plain(254, 32, 7, &entries);
    vec![TableFile::flag(), from(0), from(1), from(2), wide]
}

/// A table with one entry out of range, which is each of a small table; of a large one some, the first and the last among
/// them.
fn damaged(table: &TableFile) -> Vec<TableFile> {
    let count = table.entries.len() / 2;
    let some = (0..count).step_by(count.div_ceil(8)).chain([count - 1]);
    let places = some.flat_map(|entry| [(entry, table.states as u8), (entry, 255)]);
    let damage = |(entry, next): (usize, u8)| {
        let mut damaged = table.clone();
        damaged.entries[2 * entry] = next;
        damaged
    };
    places.map(damage).collect()
}

#[test]
fn begin_answers_by_the_record_if_all_entries_are_in_range() {
    for table in tables() {
        begin_for_all_records(&table, [0, 9, 11]);
    }
}

/// One entry is out of range: of the operation that is begun or of another, of a state that can be reached or not. That is
/// said after 5, 7 and 8, and before 11 and 9.
#[test]
fn begin_looks_at_every_entry_of_the_table() {
    for table in tables().iter().flat_map(damaged) {
        begin_for_all_records(&table, [4; 3]);
    }
}

/// The head is loaded with each state, with and without marks and a holder. The answer is that of the entry used, and
/// neither cells nor record change, but that the task is idle.
#[test]
fn a_reading_step_answers_by_its_entry_in_every_state() {
    let entries = [(10, false), (20, false), (30, true)];
    for by in By::EACH {
        for (state, (response, moved)) in entries.into_iter().enumerate() {
            for beside in [0, 0b11, 0x0200_0000, 0x1255_0001] {
                let mut lent = Lent::new(by, TableFile::spare_state().to_bytes(), 2);
                lent.cells[0] = (state as u64) << 8 | beside;
                assert_eq!(lent.begin(1, 0), 0);
                assert_eq!(lent.row, [in_phase(IDLE), in_phase(READ_ONLY)]);
                let cells = lent.cells.clone();
                let ended = Progress::Ended {
                    response,
                    moved,
                    steps: 1,
                };
                assert_eq!(lent.step(1), Ok(ended));
                assert_eq!((lent.cells, lent.row), (cells, vec![in_phase(IDLE); 2]));
            }
        }
    }
}

/// How many tables are generated, and how many calls are made on each that is taken.
const TABLES: u64 = 500;
const CALLS: usize = 600;

/// How many tables must be taken at least, and how often an operation that moves only states out of reach must be pending.
const FEWEST_TABLES: usize = 200;
const FEWEST_POINTS: usize = 20_000;

/// Makes random calls. At every point at which no changing operation is pending the cells must be an image; at how many of
/// these such an operation is pending.
fn run(by: By, table: &TableFile, tasks: usize) -> usize {
    let mut random = Random::new(tasks as u64);
    let mut lent = Lent::new(by, table.to_bytes(), tasks);
    let out_of_reach = moving_out_of_reach(&lent.file);
    assert_eq!(lent.start(), 0);
    let mut points = 0;
    for _ in 0..CALLS {
        random_call(&mut lent, usize::from(table.operations), &mut random);
        if lent.row.iter().any(|record| record.phase > READ_ONLY) {
            continue;
        }
        let (head, announcements) = lent.cells.split_first().expect("a head");
        assert_eq!((head & !0xff00, announcements), (0, vec![0; tasks].as_slice()));
        let moving = |record: &Task| {
            record.phase == READ_ONLY && out_of_reach.contains(&usize::from(record.operation))
        };
        points += usize::from(lent.row.iter().any(moving));
    }
    points
}

/// Of the generated tables those are taken that have such an operation.
#[test]
fn runs_rest_while_an_operation_is_pending_that_moves_only_states_out_of_reach() {
    let generated = (0..TABLES).map(|seed| random_reach_table(&mut Random::new(seed)));
    let (mut tables, mut points) = (0, 0);
    for table in generated.filter(|table| moves_unreachable_alone(&table.to_bytes())) {
        for by in By::EACH {
            points += run(by, &table, 1 + tables % 8);
        }
        tables += 1;
    }
    assert!(tables > FEWEST_TABLES && points > FEWEST_POINTS);
    println!(
        "spare states: runs on {tables} tables with an operation that moves only states out of reach, \
         {points} points of rest with one pending"
    );
}
