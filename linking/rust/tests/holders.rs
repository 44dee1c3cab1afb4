//! Every holder that a head can name, a task of the row or not, in the head's cell, in a record's saved head
//! and in both, over tables of 1, 2 and 256 states. What must come is said here; answer, cells and row are
//! compared with the second program.

mod both;
mod largest;
mod smallest;

use std::fmt;

use both::{By, Lent};
use drive_object::{Task, MOST_TASKS};
use largest::largest;
use reference::table_file::TableFile;
use smallest::smallest;

/// Numbers of docs/RECORDS.md: single phases, and the first of each range with one phase for each task.
struct Phases {
    single: &'static [u32],
    ranges: &'static [u32],
}

const LOAD_HEAD: u32 = 4;

/// ReadOnly, LoadHead, LinkHead, LoadExit, LinkExit, ClearExit, ReleaseExit, ClearHead, ReloadClear; Apply,
/// ReloadApply, Validate.
const ON_HEAD: Phases = Phases {
    single: &[1, LOAD_HEAD, 5, 8, 9, 10, 11, 13, 14],
    ranges: &[16, 24, 48],
};

/// Announce, Poll, LoadPriority, LoadOwn, Retract; LoadHelped, LinkHelped, HandOver, ReloadHandOver, Release,
/// ReloadRelease.
const ON_ANNOUNCEMENT: Phases = Phases {
    single: &[2, 3, 6, 7, 12],
    ranges: &[32, 40, 56, 64, 72, 80],
};

impl Phases {
    fn numbers(&self, tasks: usize) -> impl Iterator<Item = u32> {
        let ranges = self
            .ranges
            .iter()
            .flat_map(move |first| *first..first + tasks as u32);
        self.single.iter().copied().chain(ranges)
    }
}

/// A table with one of its states and one of its operations.
struct Object {
    name: &'static str,
    file: Vec<u8>,
    /// The start state and nothing else.
    started: u64,
    /// The chosen state and nothing else: a head that is in form for every number of tasks.
    free: u64,
    operation: u16,
}

impl Object {
    fn new(name: &'static str, table: &TableFile, state: u8, operation: u16) -> Object {
        Object {
            name,
            file: table.to_bytes(),
            started: u64::from(table.start) << 8,
            free: u64::from(state) << 8,
            operation,
        }
    }

    /// Set, and the operation that clears it and so moves the state.
    fn flag() -> Object {
        Object::new("flag", &TableFile::flag(), 1, 2)
    }

    /// The one state and the one operation.
    fn smallest() -> Object {
        Object::new("smallest", &smallest(), 0, 0)
    }

    /// The last state and the last operation, which moves it.
    fn largest() -> Object {
        Object::new("largest", &largest(), 255, 31)
    }
}

impl fmt::Debug for Object {
    fn fmt(&self, to: &mut fmt::Formatter) -> fmt::Result {
        to.write_str(self.name)
    }
}

/// A row's number of tasks, and the task among them that is called.
type InRow = (usize, usize);

/// Every task of rows of one to eight.
fn every_task() -> Vec<InRow> {
    let rows = 1..=MOST_TASKS;
    rows.flat_map(|tasks| (0..tasks).map(move |task| (tasks, task)))
        .collect()
}

/// The first and the last task of rows of one, three and eight.
const SOME_TASKS: [InRow; 5] = [(1, 0), (3, 0), (3, 2), (8, 0), (8, 7)];

/// The holder has four bits.
const HOLDERS: u64 = 16;
const RESPONSES: [u64; 2] = [0, 0xff];

/// The numbers of the answers.
const ACCEPTED: u8 = 0;
const PENDING: u8 = 9;
const RECORD: u8 = 11;
const CELL: u8 = 12;

/// Where the head with the holder stands. Where it doesn't, the free one does.
#[derive(Clone, Copy, Debug, PartialEq, Eq)]
enum Place {
    Cell,
    Saved,
    Both,
}

impl Place {
    const EACH: [Place; 3] = [Place::Cell, Place::Saved, Place::Both];
}

/// A task with an operation pending that is about to make its next step.
#[derive(Debug)]
struct Case<'a> {
    object: &'a Object,
    tasks: usize,
    task: usize,
    phase: u32,
    head: u64,
    place: Place,
}

impl Case<'_> {
    fn lent(&self, by: By) -> Lent {
        let object = self.object;
        let (cell, saved) = match self.place {
            Place::Cell => (self.head, object.free),
            Place::Saved => (object.free, self.head),
            Place::Both => (self.head, self.head),
        };
        let mut lent = Lent::new(by, object.file.clone(), self.tasks);
        lent.cells[0] = cell;
        lent.row[self.task] = Task {
            head: saved,
            payload: u32::from(object.operation),
            operation: object.operation,
            phase: self.phase,
            ..Task::default()
        };
        lent
    }

    fn cell_fits(&self) -> bool {
        self.place == Place::Saved || holder_of(self.head) <= self.tasks
    }

    fn record_fits(&self) -> bool {
        self.place == Place::Cell || holder_of(self.head) <= self.tasks
    }

    /// What a step on the head must answer: 11 is tested before 12.
    fn step_on_head(&self) -> u8 {
        match (self.record_fits(), self.cell_fits()) {
            (false, _) => RECORD,
            (true, false) => CELL,
            (true, true) => ACCEPTED,
        }
    }

    /// What a step on an announcement must answer: the head's cell is not looked at.
    fn step_on_announcement(&self) -> u8 {
        match self.record_fits() {
            false => RECORD,
            true => ACCEPTED,
        }
    }

    /// What begin must answer: no cell is looked at, and an operation is pending.
    fn begin(&self) -> u8 {
        match self.record_fits() {
            false => RECORD,
            true => PENDING,
        }
    }
}

fn holder_of(head: u64) -> usize {
    (head >> 24 & 0xf) as usize
}

/// A free head with a holder, with response 0 or 255 and either moved bit beside it; holder 0 has 0 for both.
fn heads_held_by(holder: u64, free: u64) -> Vec<u64> {
    let moved_or_not = |response: u64| [0, 1].map(|moved| moved << 28 | holder << 24 | response << 16 | free);
    match holder {
        0 => vec![free],
        _ => RESPONSES.into_iter().flat_map(moved_or_not).collect(),
    }
}

/// A free head with every holder.
fn heads(free: u64) -> impl Iterator<Item = u64> {
    (0..HOLDERS).flat_map(move |holder| heads_held_by(holder, free))
}

/// Every head, without a mark and with that of a task, in every place.
fn heads_in_places(free: u64, task: usize) -> impl Iterator<Item = (u64, Place)> {
    heads(free)
        .flat_map(move |head| [head, head | 1 << task])
        .flat_map(|head| Place::EACH.map(|place| (head, place)))
}

/// Every case of these tasks in these phases.
fn for_all_cases(object: &Object, called: &[InRow], phases: &Phases, mut serve: impl FnMut(&Case)) {
    for &(tasks, task) in called {
        for phase in phases.numbers(tasks) {
            for (head, place) in heads_in_places(object.free, task) {
                serve(&Case {
                    object,
                    tasks,
                    task,
                    phase,
                    head,
                    place,
                });
            }
        }
    }
}

/// How many calls were made, and how many of them wrote another word into the head's cell.
#[derive(Debug, Default, PartialEq, Eq)]
struct Made {
    calls: usize,
    heads_written: usize,
}

impl Made {
    /// Makes a call, which must answer this number. One that is refused leaves cells and row as they were.
    fn call(&mut self, case: &Case, by: By, number: u8, call: impl FnOnce(&mut Lent) -> u8) {
        let mut lent = case.lent(by);
        let (cells, row) = (lent.cells.clone(), lent.row.clone());
        assert_eq!(call(&mut lent), number, "{by:?}, {case:?}");
        if number != ACCEPTED {
            assert_eq!((&lent.cells, &lent.row), (&cells, &row), "{by:?}, {case:?}");
        }
        self.calls += 1;
        self.heads_written += usize::from(lent.cells[0] != cells[0]);
    }

    /// A step and a begin of the task.
    fn step_and_begin(&mut self, case: &Case, step: u8) {
        for by in By::EACH {
            self.call(case, by, step, |lent| {
                lent.step(case.task).map_or_else(|number| number, |_| ACCEPTED)
            });
            self.call(case, by, case.begin(), |lent| {
                lent.begin(case.task, usize::from(case.object.operation))
            });
        }
    }
}

/// A step, which must answer as said, and a begin in every case.
fn made_in_all_cases(object: &Object, called: &[InRow], phases: &Phases, step: impl Fn(&Case) -> u8) -> Made {
    let mut made = Made::default();
    for_all_cases(object, called, phases, |case| {
        made.step_and_begin(case, step(case));
    });
    made
}

#[test]
fn every_phase_but_idle_is_on_the_head_or_on_an_announcement() {
    let on_head = ON_HEAD.numbers(MOST_TASKS);
    let mut numbers: Vec<u32> = on_head.chain(ON_ANNOUNCEMENT.numbers(MOST_TASKS)).collect();
    numbers.sort_unstable();
    assert_eq!(numbers, (1..=14).chain(16..=87).collect::<Vec<u32>>());
}

/// A task in a phase, 936 times over every task and 114 times over some, 122 heads in 3 places, 4 calls. Swaps
/// are made where cell and saved head are one word in form.
#[test]
fn steps_on_the_head_judge_the_holders_of_cell_and_record() {
    let made_on = |object: Object, called: &[InRow]| {
        made_in_all_cases(&object, called, &ON_HEAD, |case| case.step_on_head())
    };
    let every = Made {
        calls: 1_370_304,
        heads_written: 34_440,
    };
    let some = Made {
        calls: 166_896,
        heads_written: 3_914,
    };
    assert_eq!(made_on(Object::flag(), &every_task()), every);
    assert_eq!(made_on(Object::smallest(), &every_task()), every);
    assert_eq!(made_on(Object::largest(), &SOME_TASKS), some);
}

/// A task in a phase, 1,404 times over every task and 163 times over some, 122 heads in 3 places, 4 calls.
#[test]
fn steps_on_an_announcement_judge_the_holder_of_the_record_alone() {
    let made_on = |object: Object, called: &[InRow]| {
        made_in_all_cases(&object, called, &ON_ANNOUNCEMENT, |case| {
            case.step_on_announcement()
        })
    };
    let every = Made {
        calls: 2_055_456,
        heads_written: 0,
    };
    let some = Made {
        calls: 238_632,
        heads_written: 0,
    };
    assert_eq!(made_on(Object::flag(), &every_task()), every);
    assert_eq!(made_on(Object::smallest(), &every_task()), every);
    assert_eq!(made_on(Object::largest(), &SOME_TASKS), some);
}

/// Starts rows whose first task is about to load the head, with every head in the cell and saved; how many.
fn starts(object: &Object, rows: impl IntoIterator<Item = usize>) -> usize {
    let mut made = 0;
    for tasks in rows {
        for head in heads(object.free) {
            let case = Case {
                object,
                tasks,
                task: 0,
                phase: LOAD_HEAD,
                head,
                place: Place::Both,
            };
            let mut lent = case.lent(By::Row);
            assert_eq!(lent.start(), ACCEPTED, "{case:?}");
            assert_eq!(lent.cells[0], object.started, "{case:?}");
            assert_eq!(lent.cells[1..], vec![0; tasks], "{case:?}");
            made += 1;
        }
    }
    made
}

/// Start looks at no cell and no record. A row is started with 61 heads.
#[test]
fn start_takes_every_holder_away() {
    assert_eq!(starts(&Object::flag(), 1..=MOST_TASKS), 488);
    assert_eq!(starts(&Object::smallest(), [1, 3, 8]), 183);
    assert_eq!(starts(&Object::largest(), [1, 3, 8]), 183);
}
