//! The sentences about the register window, tested one by one.

use crate::cells::image;
use crate::phase::Phase;
use crate::record::Record;
use crate::refusal::Refusal;
use crate::table_file::TableFile;
use crate::window::*;

/// All that is lent.
#[derive(Clone, Debug, PartialEq)]
struct Lent {
    file: Vec<u8>,
    cells: Vec<u64>,
    row: Vec<Record>,
    windows: Vec<u8>,
}

impl Lent {
    /// Idle tasks over the flag object; their windows are 0.
    fn new(tasks: usize) -> Lent {
        Lent {
            file: TableFile::flag().to_bytes(),
            cells: image(0, tasks),
            row: (0..tasks).map(|task| Record::idle(task as u8)).collect(),
            windows: vec![0; WINDOW_BYTES * tasks],
        }
    }

    /// One task, whose window is given.
    fn with_window(window: Window) -> Lent {
        Lent {
            windows: window.to_vec(),
            ..Lent::new(1)
        }
    }

    /// The number of the refusal, 0 if served.
    fn serve(&mut self, task: usize) -> u8 {
        let windows = &mut self.windows;
        serve_window(&self.file, &mut self.cells, &mut self.row, windows, task)
            .map_or_else(Refusal::number, |()| 0)
    }

    /// Gives task 0 a command.
    fn command(&mut self, command: u8) -> u8 {
        self.windows[COMMAND] = command;
        self.serve(0)
    }

    /// Begins an operation for task 0 and steps it to its end, which is then acknowledged.
    fn whole_operation(&mut self, operation: u8) -> Window {
        self.windows[OPERATION] = operation;
        assert_eq!(self.command(BEGIN), 0);
        while !has(&self.window(), DONE) {
            assert_eq!(self.command(STEP), 0);
        }
        let ended = self.window();
        assert_eq!(self.command(ACKNOWLEDGE), 0);
        ended
    }

    fn window(&self) -> Window {
        window_at(&self.windows, self.row.len(), 0).unwrap()
    }

    fn store(&self) -> (&[u64], &[Record]) {
        (&self.cells, &self.row)
    }
}

/// A record whose next step ends, with the response and moved in its payload.
fn about_to_end(payload: u32) -> Record {
    let pending = Record::idle(0).bare_in_phase(Phase::Retract);
    pending.with_payload(payload)
}

#[test]
fn an_operation_goes_through_the_window() {
    let mut lent = Lent::new(2);
    lent.windows[OPERATION] = 1;
    assert_eq!(lent.command(BEGIN), 0);
    assert_eq!(lent.window(), [1, 0, BUSY, 0, 0, 0, 0, 0]);
    for _ in 0..16 {
        assert_eq!(lent.command(STEP), 0);
        assert_eq!(lent.window(), [1, 0, BUSY, 0, 0, 0, 0, 0]);
    }
    assert_eq!(lent.command(STEP), 0);
    assert_eq!(lent.window(), [1, 0, DONE | MOVED, 0, 0, 1, 0, 0]);
    assert_eq!(lent.command(ACKNOWLEDGE), 0);
    assert_eq!(lent.window(), [1, 0, MOVED, 0, 0, 0, 0, 0]);
    assert_eq!(lent.cells, image(1, 2));
    assert_eq!(lent.windows[WINDOW_BYTES..], [0; WINDOW_BYTES]);
}

#[test]
fn moved_and_response_are_those_of_the_last_ended_operation() {
    let mut lent = Lent::new(1);
    let ended = [1, 0, 2, 0].map(|operation| lent.whole_operation(operation));
    let moved = ended.map(|window| has(&window, MOVED));
    assert_eq!(moved, [true, false, true, false]);
    assert_eq!(ended.map(|window| window[RESPONSE]), [0, 1, 1, 0]);
}

#[test]
fn moved_is_set_and_cleared() {
    for before in [0, MOVED] {
        for (payload, after) in [(0x1_0007, MOVED), (7, 0), (0xfffe_0007, 0), (u32::MAX, MOVED)] {
            let mut lent = Lent::with_window([0, STEP, BUSY | before, 9, 8, 0, 0, 0]);
            lent.row[0] = about_to_end(payload);
            assert_eq!(lent.serve(0), 0);
            let response = payload as u8;
            assert_eq!(lent.window(), [0, 0, DONE | after, response, 8, 1, 0, 0]);
            assert_eq!(lent.row, [Record::idle(0)]);
        }
    }
}

#[test]
fn of_a_response_the_low_byte_is_written() {
    for response in [0, 255, 256, 511, 0xab12, 0xffff] {
        let mut lent = Lent::with_window([0, STEP, BUSY, 9, 0, 0, 0, 0]);
        lent.row[0] = about_to_end(response);
        assert_eq!(lent.serve(0), 0);
        assert_eq!(u32::from(lent.window()[RESPONSE]), response % 256);
    }
}

/// The window after a command, its bytes at first all 255 but for status and command.
fn after(command: u8, status: u8, record: Record, operation: u8) -> (u8, Window) {
    let mut lent = Lent::with_window([operation, command, status, 255, 255, 255, 255, 255]);
    lent.row[0] = record;
    (lent.serve(0), lent.window())
}

#[test]
fn unnamed_bits_remain() {
    let all_but = |bits: u8| 255 - bits;
    let full =
        |status: u8, response, refusal, interrupt| [0, 0, status, response, refusal, interrupt, 255, 255];
    let idle = Record::idle(0);
    let begun = after(BEGIN, all_but(BUSY | DONE), idle, 0);
    assert_eq!(begun, (0, full(all_but(DONE), 255, 255, 255)));
    let running = after(STEP, 255, idle.bare_in_phase(Phase::Poll), 0);
    assert_eq!(running, (0, full(255, 255, 255, 255)));
    let ended = after(STEP, all_but(DONE), about_to_end(7), 0);
    assert_eq!(ended, (0, full(all_but(BUSY | MOVED), 7, 255, 255)));
    let acknowledged = after(ACKNOWLEDGE, 255, idle, 0);
    assert_eq!(acknowledged, (0, full(all_but(DONE | REFUSED), 255, 255, 254)));
    let refused = after(STEP, all_but(REFUSED), idle, 0);
    assert_eq!(refused, (10, full(255, 255, 10, 255)));
    let unnamed = after(STEP, 0xf0, idle, 0);
    assert_eq!(unnamed, (10, full(0xf0 | REFUSED, 255, 10, 255)));
}

#[test]
fn done_and_refused_raise_the_interrupt_and_its_other_bits_remain() {
    for interrupt in 0..=255 {
        let mut ended = Lent::with_window([0, STEP, 0, 0, 0, interrupt, 1, 0]);
        ended.row[0] = about_to_end(0);
        let mut refused = Lent::with_window([0, STEP, 0, 0, 0, interrupt, 1, 0]);
        assert_eq!((ended.serve(0), refused.serve(0)), (0, 10));
        let raised = interrupt | 1;
        assert_eq!(ended.window(), [0, 0, DONE, 0, 0, raised, 1, 0]);
        assert_eq!(refused.window(), [0, 0, REFUSED, 0, 10, raised, 1, 0]);
        assert_eq!(ended.command(ACKNOWLEDGE), 0);
        assert_eq!(ended.window()[INTERRUPT], interrupt & 254);
    }
}

#[test]
fn nothing_and_acknowledge_make_no_test_of_the_library() {
    for command in [NOTHING, ACKNOWLEDGE] {
        let mut lent = Lent::with_window([255, command, 0xff, 1, 2, 0xff, 3, 4]);
        lent.file.clear();
        lent.cells.clear();
        lent.row[0].phase = 255;
        let before = lent.clone();
        assert_eq!(lent.serve(0), 0);
        assert_eq!(lent.store(), before.store());
        let (status, interrupt) = match command {
            NOTHING => (0xff, 0xff),
            _ => (0xff - DONE - REFUSED, 0xfe),
        };
        assert_eq!(lent.window(), [255, 0, status, 1, 2, interrupt, 3, 4]);
    }
}

#[test]
fn other_commands_are_refused_with_18_before_the_librarys_tests() {
    for command in 4..=255 {
        for file in [TableFile::flag().to_bytes(), Vec::new()] {
            let mut lent = Lent::with_window([1, command, DONE, 5, 6, 0, 1, 7]);
            lent.file = file;
            let before = lent.clone();
            assert_eq!(lent.serve(0), 18);
            assert_eq!(lent.window(), [1, 0, DONE | REFUSED, 5, 18, 1, 1, 7]);
            assert_eq!(lent.store(), before.store());
            assert_eq!(lent.serve(0), 0, "taken once");
        }
    }
}

#[test]
fn begin_before_done_is_acknowledged_is_refused_with_17_before_the_librarys_tests() {
    for (length, operation) in [(28, 1), (28, 255), (27, 1), (0, 1)] {
        let mut lent = Lent::with_window([operation, BEGIN, DONE, 5, 6, 0, 1, 7]);
        lent.file.truncate(length);
        let before = lent.clone();
        assert_eq!(lent.serve(0), 17);
        assert_eq!(lent.window(), [operation, 0, DONE | REFUSED, 5, 17, 1, 1, 7]);
        assert_eq!(lent.store(), before.store());
    }
    let mut lent = Lent::with_window([1, BEGIN, DONE, 5, 6, 1, 1, 7]);
    assert_eq!(lent.command(ACKNOWLEDGE), 0);
    assert_eq!(lent.command(BEGIN), 0);
}

#[test]
fn a_step_does_not_look_at_done() {
    let (number, window) = after(STEP, DONE, about_to_end(3), 0);
    assert_eq!((number, window[STATUS], window[RESPONSE]), (0, DONE, 3));
}

#[test]
fn refused_begins_and_steps_change_bytes_1_2_4_and_5_alone() {
    let cut = |lent: &mut Lent| lent.file.truncate(27);
    let no_cells = |lent: &mut Lent| lent.cells.clear();
    let pending = |lent: &mut Lent| lent.row[0] = about_to_end(0);
    let damaged = |lent: &mut Lent| lent.row[0].phase = 15;
    let wrong_cell = |lent: &mut Lent| {
        lent.row[0] = about_to_end(0);
        lent.cells[1] = 0x300;
    };
    let cases: [(u8, u8, &dyn Fn(&mut Lent), u8); 8] = [
        (BEGIN, 1, &cut, 1),
        (BEGIN, 3, &pending, 8),
        (BEGIN, 1, &pending, 9),
        (BEGIN, 1, &damaged, 11),
        (STEP, 1, &no_cells, 6),
        (STEP, 1, &|_| {}, 10),
        (STEP, 1, &damaged, 11),
        (STEP, 1, &wrong_cell, 12),
    ];
    for (command, operation, change, number) in cases {
        for busy in [0, BUSY] {
            let mut lent = Lent::with_window([operation, command, busy, 5, 6, 0, 1, 7]);
            change(&mut lent);
            let before = lent.clone();
            assert_eq!(lent.serve(0), number);
            assert_eq!(lent.window(), [operation, 0, busy | REFUSED, 5, number, 1, 1, 7]);
            assert_eq!(lent.store(), before.store());
        }
    }
}

#[test]
fn nine_records_are_refused_with_5_after_the_files_tests() {
    for (first, number) in [(0, 5), (1, 3), (13, 1)] {
        for command in [BEGIN, STEP] {
            let mut lent = Lent::new(9);
            lent.file.drain(..first);
            assert_eq!(lent.command(command), number);
        }
    }
}

/// Lengths of windows that are not right for so many tasks.
fn wrong_lengths(tasks: usize) -> impl Iterator<Item = usize> {
    let right = WINDOW_BYTES * tasks;
    (0..right + 17).filter(move |&length| length != right)
}

#[test]
fn windows_of_another_length_are_refused_with_18_and_no_byte_changes() {
    for tasks in 0..=9 {
        for length in wrong_lengths(tasks) {
            for (task, file) in [(0, 28), (0, 0), (tasks, 28), (usize::MAX, 0)] {
                let mut lent = Lent::new(tasks);
                lent.file.truncate(file);
                lent.windows = [BEGIN; 100][..length].to_vec();
                let before = lent.clone();
                assert_eq!(lent.serve(task), 18);
                assert_eq!(lent, before);
                assert_eq!(line_is_up(&lent.windows, tasks, task), Err(Refusal::Window));
            }
        }
    }
}

#[test]
fn a_task_without_a_window_is_refused_with_7_and_no_byte_changes() {
    for tasks in 0..=9 {
        for task in [tasks, tasks + 1, 9, 256, usize::MAX / 8 + 1, usize::MAX] {
            for (command, file) in [(0, 28), (1, 28), (1, 0), (2, 0), (3, 28), (4, 28), (255, 0)] {
                let mut lent = Lent::new(tasks);
                lent.file.truncate(file);
                lent.windows.fill(command);
                let before = lent.clone();
                assert_eq!(lent.serve(task), 7);
                assert_eq!(lent, before);
                assert_eq!(line_is_up(&lent.windows, tasks, task), Err(Refusal::Task));
            }
        }
    }
}

#[test]
fn a_number_of_tasks_whose_windows_no_store_has_is_refused_with_18() {
    for tasks in [usize::MAX / 8 + 1, usize::MAX / 8 + 2, usize::MAX] {
        for length in [0, 8, 16] {
            assert_eq!(line_is_up(&[0; 16][..length], tasks, 0), Err(Refusal::Window));
        }
    }
}

#[test]
fn the_line_is_up_while_an_interrupt_waits_and_is_not_masked() {
    for interrupt in 0..=255 {
        for mask in 0..=255 {
            let windows = [
                0,
                0,
                0,
                0,
                0,
                1 - interrupt % 2,
                1,
                0,
                9,
                9,
                9,
                9,
                9,
                interrupt,
                mask,
                9,
            ];
            let up = interrupt % 2 == 1 && mask % 2 == 0;
            assert_eq!(line_is_up(&windows, 2, 1), Ok(up));
        }
    }
}

#[test]
fn the_mask_hides_the_line_and_nothing_else() {
    let [plain, masked] = [0, 1].map(|mask| {
        let mut lent = Lent::with_window([0, STEP, 0, 0, 0, 0, mask, 0]);
        assert_eq!(lent.serve(0), 10);
        lent.windows
    });
    assert_eq!(line_is_up(&plain, 1, 0), Ok(true));
    assert_eq!(line_is_up(&masked, 1, 0), Ok(false));
    assert_eq!(plain[..MASK], masked[..MASK]);
    let mut unmasked = masked;
    unmasked[MASK] = 0;
    assert_eq!(unmasked, plain);
}

#[test]
fn a_call_changes_its_own_window_alone() {
    for task in 0..3 {
        for command in [BEGIN, STEP, ACKNOWLEDGE, 4] {
            let mut lent = Lent::new(3);
            lent.windows.fill(0xa5);
            lent.windows[WINDOW_BYTES * task..][..3].copy_from_slice(&[1, command, 0]);
            let before = lent.windows.clone();
            lent.serve(task);
            for other in (0..3).filter(|&other| other != task) {
                let of = |windows: &[u8]| window_at(windows, 3, other);
                assert_eq!(of(&lent.windows), of(&before));
            }
            assert_ne!(lent.windows, before);
        }
    }
}
