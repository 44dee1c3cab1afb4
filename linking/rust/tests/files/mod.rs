//! Files that are served, and files that are refused.

use drive_object::LONGEST_FILE;
use reference::table_file::TableFile;

use crate::smallest::smallest;

/// The flag's file, one with a spare state and the smallest one, and one for each of the causes 1 to 4; 4 in each operation,
/// and in each operation in a spare state.
pub fn files() -> Vec<Vec<u8>> {
    let flag = TableFile::flag();
    let damaged = |damage: &dyn Fn(&mut TableFile)| {
        let mut file = flag.clone();
        damage(&mut file);
        file.to_bytes()
    };
    let damaged_in_spare = |operation: usize| {
        let mut file = TableFile::spare_state();
        file.entries[2 * (2 * 2 + operation)] = 3;
        file.to_bytes()
    };
    vec![
        flag.to_bytes(),
        TableFile::spare_state().to_bytes(),
        smallest().to_bytes(),
        Vec::new(),
        damaged(&|file| file.mark[5] = b'2'),
        damaged(&|file| file.start = 2),
        damaged(&|file| file.offset = 1),
        damaged(&|file| file.entries[0] = 2),
        damaged(&|file| file.entries[8] = 2),
        damaged(&|file| file.entries[10] = 255),
        damaged_in_spare(0),
        damaged_in_spare(1),
        flag.clone().with_text(vec![b' '; 4_096]).to_bytes(),
        flag.clone().with_text(vec![b' '; 4_097]).to_bytes(),
        vec![0; LONGEST_FILE + 1],
    ]
}
