//! The window call and the question for the line, compared with the second program: answer, cells, row and windows, with the
//! bytes around them, of generated cases; the order of the tests; and runs beside a twin that makes the direct calls.

mod window_lent;

use std::collections::BTreeSet;

use drive_object::{Refusal, Task, WINDOW_BYTES};
use reference::record::Record;
use reference::table_file::TableFile;
use reference::window_cases::{cases, line_cases, Case};
use reference::window_runs::{runs, Event, Run, Store};
use reference::window_twin::{direct_call, reading, Reading};
use reference::{refusal, window};
use window_lent::{refused_with, task_of, Lent, MARGIN};

/// How much must be compared at least.
const FEWEST_CALLS: usize = 20_000;
const FEWEST_RUNS: usize = 500;

fn lent_of(case: &Case, opposite: u8) -> Lent {
    Lent::new(&case.file, &case.cells, &case.row, &case.windows, opposite)
}

/// What the second program leaves of a case, and the refusal's number, 0 if the call is served.
fn expected(case: &Case) -> (Case, u8) {
    let mut after = case.clone();
    let (cells, row, windows) = (&mut after.cells, &mut after.row, &mut after.windows);
    let answer = window::serve_window(&case.file, cells, row, windows, case.task);
    (after, answer.map_or_else(refusal::Refusal::number, |()| 0))
}

/// Makes the window call of a case by both programs; the refusal's number, 0 if it is served. A byte that is written around
/// the windows differs once.
fn served(case: &Case) -> u8 {
    let (after, number) = expected(case);
    for opposite in [0, u8::MAX] {
        let mut lent = lent_of(case, opposite);
        assert_eq!(lent.serve(case.task), number, "{}", case.name);
        lent.assert_is(&lent_of(&after, opposite), &case.name);
        assert_line(lent.windows(), case.row.len(), case.task, &case.name);
    }
    assert_direct(case, &after, number);
    number
}

/// The direct call, if there is one, is refused as the window call is, and leaves the same cells and row.
fn assert_direct(case: &Case, after: &Case, number: u8) {
    if let Some(call) = direct_call(&case.windows, case.row.len(), case.task) {
        let mut direct = lent_of(case, 0);
        assert_eq!(refused_with(direct.call(call)), number, "{}", case.name);
        assert_eq!(direct.cells, after.cells, "{}", case.name);
        let row: Vec<Task> = after.row.iter().map(task_of).collect();
        assert_eq!(direct.row, row, "{}", case.name);
    }
}

/// Whether a line is up, or the refusal's number.
fn line(windows: &[u8], tasks: usize, task: usize) -> Result<bool, u8> {
    drive_object::line_is_up(windows, tasks, task).map_err(Refusal::number)
}

/// Asks both programs for a line.
fn assert_line(windows: &[u8], tasks: usize, task: usize, name: &str) {
    let lent = windows.to_vec();
    let theirs = window::line_is_up(windows, tasks, task).map_err(refusal::Refusal::number);
    assert_eq!(
        line(&lent, tasks, task),
        theirs,
        "{name}, line of task {task} of {tasks}"
    );
    assert_eq!(lent, windows, "{name}");
}

#[test]
fn calls_are_those_of_the_second_program() {
    let (mut calls, mut numbers) = (0, BTreeSet::new());
    let (mut commands, mut rows) = (BTreeSet::new(), BTreeSet::new());
    for case in cases() {
        let own = WINDOW_BYTES.saturating_mul(case.task);
        commands.extend(case.windows.get(own.saturating_add(window::COMMAND)));
        rows.insert(case.row.len());
        assert_line(&case.windows, case.row.len(), case.task, &case.name);
        numbers.insert(served(&case));
        calls += 1;
    }
    assert!(calls >= FEWEST_CALLS);
    assert_eq!(commands, (0..=u8::MAX).collect());
    assert_eq!(rows, (0..=9).collect());
    assert_eq!(numbers, (0..=12).chain([17, 18]).collect());
    println!("windows: {calls} calls compared, each with the bytes around the windows and with the line");
}

#[test]
fn lines_are_those_of_the_second_program() {
    let (mut lines, mut answers) = (0, BTreeSet::new());
    for case in line_cases() {
        assert_line(&case.windows, case.tasks, case.task, "a line");
        answers.insert(line(&case.windows, case.tasks, case.task));
        lines += 1;
    }
    assert_eq!(answers, BTreeSet::from([Ok(false), Ok(true), Err(7), Err(18)]));
    println!("windows: {lines} lines compared");
}

/// A window call for one of some tasks, whose file, cells and records are all refused, with done on in every window.
fn worst(command: u8, tasks: usize, task: usize) -> Case {
    let record = Record {
        phase: u8::MAX,
        ..Record::default()
    };
    Case {
        name: format!("command {command}, task {task} of {tasks}"),
        file: Vec::new(),
        cells: Vec::new(),
        row: vec![record; tasks],
        windows: [1, command, window::DONE | 0x50, 2, 3, 0xfe, 4, 5].repeat(tasks),
        task,
    }
}

/// Asserts the answer of a case, and that nothing changes.
fn assert_left(case: &Case, number: u8) {
    assert_eq!(served(case), number, "{}", case.name);
    assert_eq!(expected(case).0, *case);
}

#[test]
fn the_windows_length_is_tested_first_and_the_task_then() {
    for command in 0..=u8::MAX {
        for task in [0, 3, 8, 9, 10, usize::MAX / WINDOW_BYTES + 1, usize::MAX] {
            let nine = worst(command, 9, task);
            for length in [0, 8, 64, 71, 73, 79, 80] {
                let mut case = nine.clone();
                case.windows.resize(length, command);
                assert_left(&case, 18);
            }
            if task >= 9 {
                assert_left(&nine, 7);
            }
            assert_left(&worst(command, 0, task), 7);
        }
    }
}

/// Asserts the answer of a case, and what the call leaves of its window.
fn assert_window(case: &Case, number: u8, window: [u8; WINDOW_BYTES]) {
    assert_eq!(served(case), number, "{}", case.name);
    let mut windows = case.windows.clone();
    windows[WINDOW_BYTES * case.task..][..WINDOW_BYTES].copy_from_slice(&window);
    assert_eq!(expected(case).0.windows, windows, "{}", case.name);
}

/// The command's value, then 17, then the library's own tests; nothing and acknowledge pass all of them by.
#[test]
fn commands_are_tested_before_the_library_tests() {
    let refused = |number| [1, 0, 0x56, 2, number, 0xff, 4, 5];
    let worst = |command| worst(command, 9, 3);
    for command in 4..=u8::MAX {
        assert_window(&worst(command), 18, refused(18));
    }
    assert_window(&worst(window::BEGIN), 17, refused(17));
    assert_window(&worst(window::STEP), 1, refused(1));
    assert_window(&worst(window::ACKNOWLEDGE), 0, [1, 0, 0x50, 2, 3, 0xfe, 4, 5]);
    assert_left(&worst(window::NOTHING), 0);
}

/// Once done is acknowledged, begin and step come to the library's own tests, one after the other.
#[test]
fn library_tests_come_in_their_order() {
    let refused = |number| [1, 0, 0x54, 2, number, 0xff, 4, 5];
    for (command, last) in [(window::BEGIN, 11), (window::STEP, 6)] {
        for tasks in [8, 9] {
            let mut case = worst(command, tasks, 3);
            case.windows[WINDOW_BYTES * case.task + window::STATUS] = 0x50;
            assert_window(&case, 1, refused(1));
            case.file = TableFile::flag().to_bytes();
            let number = if tasks == 9 { 5 } else { last };
            assert_window(&case, number, refused(number));
        }
    }
}

/// The second program has these fields in a byte, so they are not compared with it.
#[test]
fn wide_phases_and_priorities_are_out_of_form() {
    let flag = TableFile::flag().to_bytes();
    for (phase, priority) in [(256 + 2, 0), (u32::MAX, 0), (0, 256)] {
        for command in [window::BEGIN, window::STEP] {
            let record = Task {
                phase,
                priority,
                ..Task::default()
            };
            let (mut row, mut cells, mut windows) = ([record], [0, 0], [0, command, 0, 0, 0, 0, 0, 0]);
            let answer = drive_object::serve_window(&flag, &mut cells, &mut row, &mut windows, 0);
            assert_eq!(answer, Err(Refusal::Record));
            assert_eq!((row, cells), ([record], [0, 0]));
            assert_eq!(windows, [0, 0, window::REFUSED, 0, 11, 1, 0, 0]);
        }
    }
}

extern "C" {
    fn drive_window(
        file: *const u8,
        file_length: usize,
        cells: *mut u64,
        cell_count: usize,
        row: *mut Task,
        task_count: usize,
        windows: *mut u8,
        window_length: usize,
        task: usize,
    ) -> u64;
    fn drive_window_line(windows: *const u8, window_length: usize, task_count: usize, task: usize) -> u64;
}

/// The archive's own word for a case.
fn word(case: &Case) -> u64 {
    let row: Vec<Task> = case.row.iter().map(task_of).collect();
    let (mut cells, mut row, mut windows) = (case.cells.clone(), row, case.windows.clone());
    let (file, cells, row, windows) = (&case.file, &mut cells, &mut row, &mut windows);
    // SAFETY: each pointer comes with the length of its own vector, which nobody else has meanwhile.
    unsafe {
        drive_window(
            file.as_ptr(),
            file.len(),
            cells.as_mut_ptr(),
            cells.len(),
            row.as_mut_ptr(),
            row.len(),
            windows.as_mut_ptr(),
            windows.len(),
            case.task,
        )
    }
}

/// The word of a window call is the refusal's number or 0, that of a line has its low number or the refusal, and nothing else.
#[test]
fn words_have_nothing_beside_the_number_and_the_line() {
    for case in cases() {
        assert_eq!(word(&case), u64::from(expected(&case).1), "{}", case.name);
    }
    for case in line_cases() {
        let (windows, tasks, task) = (&case.windows, case.tasks, case.task);
        let expected = match window::line_is_up(windows, tasks, task) {
            Ok(up) => u64::from(up) << 16,
            Err(refusal) => u64::from(refusal.number()),
        };
        // SAFETY: the pointer comes with the length of its own vector.
        let word = unsafe { drive_window_line(windows.as_ptr(), windows.len(), tasks, task) };
        assert_eq!(word, expected, "{tasks} tasks, task {task}");
    }
}

/// A run through the archive's windows, its twin by the archive's direct calls, and the run by the second program.
struct Trio {
    lent: Lent,
    twin: Lent,
    second: Store,
    consoles: Vec<usize>,
}

impl Trio {
    fn started(run: &Run) -> Trio {
        let second = Store::started(&run.file, &run.windows);
        let records = vec![Record::default(); run.tasks];
        let mut lent = Lent::new(&run.file, &vec![0; run.tasks + 1], &records, &run.windows, 0);
        let started = drive_object::start(&lent.file, &mut lent.cells, &mut lent.row);
        assert_eq!(started, Ok(()));
        Trio {
            twin: lent.clone(),
            lent,
            second,
            consoles: run.consoles.clone(),
        }
    }

    /// Makes an event three times; what a console reads of its call, if it is one's window call.
    fn make(&mut self, event: Event, name: &str) -> Option<Reading> {
        let before = self.lent.windows().to_vec();
        let call = event.direct_call(&before, self.lent.row.len());
        let answer = call.map(|call| self.twin.call(call));
        let number = match event {
            Event::Window { task } => Some(self.lent.serve(task)),
            Event::Written { place, byte } => {
                self.lent.buffer[MARGIN + place] = byte;
                None
            }
            Event::Begin { .. } | Event::Step { .. } => {
                assert_eq!(call.map(|call| self.lent.call(call)), answer, "{name}");
                None
            }
        };
        self.second.make(event);
        self.compare(name);
        if let (Some(number), Some(answer)) = (number, answer) {
            assert_eq!(number, refused_with(answer), "{name}");
        }
        let is_console = matches!(event, Event::Window { task } if self.consoles.contains(&task));
        let read = call.filter(|_| is_console);
        let read = read.map(|call| reading(call, &before, self.lent.windows()));
        assert!(read.is_none() || read == answer, "{name}");
        read
    }

    /// Compares everything that the three have, and the line of every task.
    fn compare(&self, name: &str) {
        assert_eq!(self.lent.cells, self.twin.cells, "{name}");
        assert_eq!(self.lent.row, self.twin.row, "{name}");
        let second = &self.second;
        let second = Lent::new(&second.file, &second.cells, &second.row, &second.windows, 0);
        self.lent.assert_is(&second, name);
        let tasks = self.lent.row.len();
        (0..tasks).for_each(|task| assert_line(self.lent.windows(), tasks, task, name));
    }
}

#[test]
fn runs_are_those_of_direct_calls() {
    let (mut made, mut events, mut read) = (0, 0, Vec::new());
    for run in runs() {
        let mut trio = Trio::started(&run);
        for (place, &event) in run.events.iter().enumerate() {
            read.extend(trio.make(event, &format!("run {made}, event {place}, {event:?}")));
        }
        made += 1;
        events += run.events.len();
    }
    assert!(made >= FEWEST_RUNS);
    let count = |test: fn(&&Reading) -> bool| read.iter().filter(test).count();
    let ended = count(|reading| matches!(reading, Reading::Ended { .. }));
    let refused = count(|reading| matches!(reading, Reading::Refused(_)));
    assert!(ended > 0 && refused > 0);
    println!("windows: {made} runs of {events} events compared with direct calls");
    let read = read.len();
    println!(
        "windows: {read} answers read by consoles there, {ended} of ended operations and {refused} refusals"
    );
}
