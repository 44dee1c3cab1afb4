//! Ceilings of small and great numbers of tasks, which of these and which rows are refused with 5, and records whose count
//! of steps stands around a ceiling, compared with the second program.

mod both;
mod files;
mod smallest;

use both::{By, Lent};
use drive_object::{Progress, Refusal, Task, MOST_TASKS};
use files::files;
use reference::record::Record;
use reference::table_file::TableFile;
use reference::{file_calls, refusal};

/// The numbers of the answers.
const PENDING: u8 = 9;
const RECORD: u8 = 11;

/// What the second program answers, by its table.
fn listed(tasks: usize) -> Result<u32, u8> {
    reference::ceiling::ceiling(tasks).map_err(refusal::Refusal::number)
}

/// 0 to 2,000, all powers of two with their neighbours, and the greatest.
fn numbers_of_tasks() -> impl Iterator<Item = usize> {
    let powers = (0..usize::BITS).map(|place| 1_usize << place);
    let around = powers.flat_map(|power| [power - 1, power, power + 1]);
    (0..=2_000).chain(around).chain([usize::MAX])
}

#[test]
fn ceilings_are_those_of_the_second_program() {
    for tasks in numbers_of_tasks() {
        let ours = drive_object::ceiling(tasks).map_err(Refusal::number);
        assert_eq!(ours, listed(tasks), "{tasks} tasks");
    }
}

extern "C" {
    fn drive_ceiling(task_count: usize) -> u64;
}

/// The word has the steps in its high half or the number in its low byte, and nothing else.
#[test]
fn words_have_nothing_beside_the_number_and_the_steps() {
    for tasks in numbers_of_tasks() {
        let expected = match listed(tasks) {
            Ok(steps) => u64::from(steps) << 32,
            Err(number) => u64::from(number),
        };
        // SAFETY: the call is lent nothing.
        let word = unsafe { drive_ceiling(tasks) };
        assert_eq!(word, expected, "{tasks} tasks");
    }
}

/// How the second program refuses begin and step for a row of nine, which has no ceiling either: by 1 to 3, or by 5.
fn refused_for_nine(file: &[u8]) -> u8 {
    let (mut row, mut cells) = ([Record::default(); MOST_TASKS + 1], [0; MOST_TASKS + 2]);
    let begun = file_calls::begin(file, &mut row, 0, 2).expect_err("a refusal");
    let stepped = file_calls::step(file, &mut cells, &mut row, 0).expect_err("a refusal");
    assert_eq!(begun.number(), stepped.number());
    begun.number()
}

/// A record that is lent alone comes with a number of tasks. Where that has no ceiling, begin and step are refused before the
/// cells and the record are looked at.
#[test]
fn numbers_without_a_ceiling_are_refused_by_begin_and_step() {
    for file in files() {
        let expected = Err(refused_for_nine(&file));
        for tasks in numbers_of_tasks().filter(|&tasks| listed(tasks).is_err()) {
            for record in [
                Task::default(),
                pending(2, 0),
                pending(2, u32::MAX),
                pending(88, 0),
            ] {
                let (mut own, mut cells) = (record, [0; 9]);
                let begun = drive_object::begin_record(&file, tasks, 0, 2, &mut own);
                assert_eq!(begun.map_err(Refusal::number), expected, "{tasks} tasks");
                let stepped = drive_object::step_record(&file, &mut cells, tasks, 0, &mut own);
                assert_eq!(
                    stepped.map(drop).map_err(Refusal::number),
                    expected,
                    "{tasks} tasks"
                );
                assert_eq!((own, cells), (record, [0; 9]), "{tasks} tasks");
            }
        }
    }
}

/// Rows of up to 20 records, and longer ones whose length has 0, 1 or 8 in its low bits.
#[test]
fn rows_of_many_lengths_are_answered_as_by_the_second_program() {
    for file in files() {
        for tasks in (0..=20).chain([256, 257, 264, 65_536, 65_537, 65_544]) {
            let mut lent = Lent::new(By::Row, file.clone(), tasks);
            lent.begin(0, 2);
            let _ = lent.step(0);
            lent.start();
        }
    }
}

/// A record of an operation that clears the flag, after some steps.
fn pending(phase: u32, steps: u32) -> Task {
    Task {
        phase,
        steps,
        operation: 2,
        payload: 2,
        ..Task::default()
    }
}

/// The phases of docs/RECORDS.md but idle: single ones, and those with one for each task.
fn phases(tasks: usize) -> impl Iterator<Item = u32> {
    let ranges = (16..=80).step_by(8);
    (1..=14).chain(ranges.flat_map(move |first| first..first + tasks as u32))
}

/// Counts around every ceiling, those of other numbers of tasks too.
fn counts() -> impl Iterator<Item = u32> {
    let ceilings = (1..=MOST_TASKS).map(|tasks| listed(tasks).expect("a ceiling"));
    let around = ceilings.flat_map(|ceiling| [ceiling - 1, ceiling, ceiling + 1]);
    [0, u32::MAX].into_iter().chain(around)
}

/// A row with one record of this count, which is about to make a step.
struct Case {
    tasks: usize,
    task: usize,
    phase: u32,
    steps: u32,
}

impl Case {
    fn lent(&self, by: By) -> Lent {
        let mut lent = Lent::new(by, TableFile::flag().to_bytes(), self.tasks);
        lent.row[self.task] = pending(self.phase, self.steps);
        lent
    }

    /// A count below the ceiling is served: begin says that the operation is pending, a step goes on or ends.
    fn served(&self, by: By, ceiling: u32) {
        assert_eq!(self.lent(by).begin(self.task, 2), PENDING);
        let mut lent = self.lent(by);
        match lent.step(self.task).expect("a step that is served") {
            Progress::Ended { steps, .. } => assert_eq!(steps, self.steps + 1),
            Progress::Running => assert_eq!(lent.row[self.task].steps, self.steps + 1),
        }
        if lent.row[self.task].steps == ceiling {
            self.refused(by, lent);
        }
    }

    /// From the ceiling up the record is out of form.
    fn refused(&self, by: By, mut lent: Lent) {
        let before = (lent.cells.clone(), lent.row.clone());
        assert_eq!(lent.begin(self.task, 2), RECORD, "{by:?}");
        assert_eq!(lent.step(self.task), Err(RECORD), "{by:?}");
        assert_eq!((lent.cells, lent.row), before);
    }
}

/// Every task of rows of one to eight, in every phase, with every count.
fn for_all_cases(mut serve: impl FnMut(Case)) {
    for tasks in 1..=MOST_TASKS {
        for task in 0..tasks {
            for phase in phases(tasks) {
                for steps in counts() {
                    serve(Case {
                        tasks,
                        task,
                        phase,
                        steps,
                    });
                }
            }
        }
    }
}

#[test]
fn records_are_served_below_the_ceiling_and_refused_from_it_up() {
    let (mut served, mut refused) = (0, 0);
    for_all_cases(|case| {
        let ceiling = listed(case.tasks).expect("a ceiling");
        for by in By::EACH {
            if case.steps < ceiling {
                case.served(by, ceiling);
                served += 1;
            } else {
                case.refused(by, case.lent(by));
                refused += 1;
            }
        }
    });
    println!("ceilings: {served} records served below their ceiling, {refused} refused from it up");
    assert!(served > 0 && refused > 0);
}
