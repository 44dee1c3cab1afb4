//! `drive canonical`: the one file of an object, as the library writes it.

use drive_object::{write_canonical, LONGEST_CANONICAL};

use crate::refused;
use crate::room;

/// The file that is written for a table, or the refusal of the table in words, which call it by the name.
pub fn file_of(table: &[u8], name: &str) -> Result<Vec<u8>, String> {
    room::written(LONGEST_CANONICAL, |room| {
        write_canonical(table, room).map_err(|refusal| format!("{name} is {}", refused::in_words(refusal)))
    })
}
