//! The tables that are measured. In each, operation 0 reads and operation 1 leads to the next state.

use reference::table_file::TableFile;

pub const READING: usize = 0;
pub const CHANGING: usize = 1;

/// A table with so many states and operations, after so much text; the response is the old state.
pub fn table(states: u16, operations: u16, text: usize) -> Vec<u8> {
    let next = |state: u16, operation: u16| match usize::from(operation) {
        READING => state,
        _ => (state + 1) % states,
    };
    let entries: Vec<(u8, u8)> = (0..states)
        .flat_map(|state| (0..operations).map(move |operation| (next(state, operation) as u8, state as u8)))
        .collect();
    TableFile::plain(states, operations, 0, &entries)
        .with_text(vec![b' '; text])
        .to_bytes()
}
