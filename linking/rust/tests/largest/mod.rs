//! The largest table.

use reference::table_file::TableFile;

/// 256 states and 32 operations; operation o goes o states on and answers state and operation mixed.
pub fn largest() -> TableFile {
    let entries: Vec<(u8, u8)> = (0..=255u8)
        .flat_map(|state| (0..32u8).map(move |o| (state.wrapping_add(o), state ^ o)))
        .collect();
    TableFile::plain(256, 32, 255, &entries).with_text(vec![b' '; 4_096])
}
