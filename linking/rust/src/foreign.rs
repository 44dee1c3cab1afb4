//! The functions of the archive. A slice is handed over as its pointer and its length, a record as its pointer.

use crate::Task;

extern "C" {
    fn drive_check(file: *const u8, file_length: usize) -> u64;
    fn drive_canonical(file: *const u8, file_length: usize, room: *mut u8, room_length: usize) -> u64;
    fn drive_force(
        file: *const u8,
        file_length: usize,
        state: usize,
        targets: *const u8,
        target_count: usize,
        moves: usize,
    ) -> u64;
    fn drive_start(
        file: *const u8,
        file_length: usize,
        cells: *mut u64,
        cell_count: usize,
        row: *mut Task,
        task_count: usize,
    ) -> u64;
    fn drive_begin(
        file: *const u8,
        file_length: usize,
        row: *mut Task,
        task_count: usize,
        task: usize,
        operation: usize,
    ) -> u64;
    fn drive_step(
        file: *const u8,
        file_length: usize,
        cells: *mut u64,
        cell_count: usize,
        row: *mut Task,
        task_count: usize,
        task: usize,
    ) -> u64;
    fn drive_begin_record(
        file: *const u8,
        file_length: usize,
        task_count: usize,
        task: usize,
        operation: usize,
        own: *mut Task,
    ) -> u64;
    fn drive_step_record(
        file: *const u8,
        file_length: usize,
        cells: *mut u64,
        cell_count: usize,
        task_count: usize,
        task: usize,
        own: *mut Task,
    ) -> u64;
    fn drive_window(
        file: *const u8,
        file_length: usize,
        cells: *mut u64,
        cell_count: usize,
        row: *mut Task,
        task_count: usize,
        windows: *mut u8,
        window_length: usize,
        task: usize,
    ) -> u64;
    fn drive_window_line(windows: *const u8, window_length: usize, task_count: usize, task: usize) -> u64;
    fn drive_ceiling(task_count: usize) -> u64;
    fn desk_owner(rings: *const u32, word_count: usize, chainage: u64) -> u64;
    fn desk_table(rings: *const u32, word_count: usize, room: *mut u8, room_length: usize) -> u64;
}

// In every call below each pointer is that of one record, or comes with the length of its own slice. The borrow lasts as
// long as the call and, for what may be written, is exclusive; the called function touches nothing else.

#[inline]
pub fn check(file: &[u8]) -> u64 {
    // SAFETY: see above.
    unsafe { drive_check(file.as_ptr(), file.len()) }
}

#[inline]
pub fn write_canonical(file: &[u8], room: &mut [u8]) -> u64 {
    // SAFETY: see above.
    unsafe { drive_canonical(file.as_ptr(), file.len(), room.as_mut_ptr(), room.len()) }
}

#[inline]
pub fn force(file: &[u8], state: usize, targets: &[u8], moves: usize) -> u64 {
    // SAFETY: see above.
    unsafe {
        drive_force(
            file.as_ptr(),
            file.len(),
            state,
            targets.as_ptr(),
            targets.len(),
            moves,
        )
    }
}

#[inline]
pub fn start(file: &[u8], cells: &mut [u64], row: &mut [Task]) -> u64 {
    // SAFETY: see above. Every bit pattern is a cell, and every bit pattern of a record's fields is a record.
    unsafe {
        drive_start(
            file.as_ptr(),
            file.len(),
            cells.as_mut_ptr(),
            cells.len(),
            row.as_mut_ptr(),
            row.len(),
        )
    }
}

#[inline]
pub fn begin(file: &[u8], row: &mut [Task], task: usize, operation: usize) -> u64 {
    // SAFETY: see above.
    unsafe {
        drive_begin(
            file.as_ptr(),
            file.len(),
            row.as_mut_ptr(),
            row.len(),
            task,
            operation,
        )
    }
}

#[inline]
pub fn step(file: &[u8], cells: &mut [u64], row: &mut [Task], task: usize) -> u64 {
    // SAFETY: see above.
    unsafe {
        drive_step(
            file.as_ptr(),
            file.len(),
            cells.as_mut_ptr(),
            cells.len(),
            row.as_mut_ptr(),
            row.len(),
            task,
        )
    }
}

#[inline]
pub fn begin_record(file: &[u8], tasks: usize, task: usize, operation: usize, own: &mut Task) -> u64 {
    // SAFETY: see above.
    unsafe { drive_begin_record(file.as_ptr(), file.len(), tasks, task, operation, own) }
}

#[inline]
pub fn step_record(file: &[u8], cells: &mut [u64], tasks: usize, task: usize, own: &mut Task) -> u64 {
    // SAFETY: see above.
    unsafe {
        drive_step_record(
            file.as_ptr(),
            file.len(),
            cells.as_mut_ptr(),
            cells.len(),
            tasks,
            task,
            own,
        )
    }
}

#[inline]
pub fn serve_window(
    file: &[u8],
    cells: &mut [u64],
    row: &mut [Task],
    windows: &mut [u8],
    task: usize,
) -> u64 {
    // SAFETY: see above.
    unsafe {
        drive_window(
            file.as_ptr(),
            file.len(),
            cells.as_mut_ptr(),
            cells.len(),
            row.as_mut_ptr(),
            row.len(),
            windows.as_mut_ptr(),
            windows.len(),
            task,
        )
    }
}

#[inline]
pub fn line_is_up(windows: &[u8], tasks: usize, task: usize) -> u64 {
    // SAFETY: see above.
    unsafe { drive_window_line(windows.as_ptr(), windows.len(), tasks, task) }
}

#[inline]
pub fn ceiling(tasks: usize) -> u64 {
    // SAFETY: nothing is lent.
    unsafe { drive_ceiling(tasks) }
}

#[inline]
pub fn owner(rings: &[u32], chainage: u64) -> u64 {
    // SAFETY: see above.
    unsafe { desk_owner(rings.as_ptr(), rings.len(), chainage) }
}

#[inline]
pub fn write_ring_table(rings: &[u32], room: &mut [u8]) -> u64 {
    // SAFETY: see above.
    unsafe { desk_table(rings.as_ptr(), rings.len(), room.as_mut_ptr(), room.len()) }
}
