//! `drive ring-table`: the object file of a drive, as the library writes it.

use drive_object::{write_ring_table, LONGEST_RING_TABLE};

use crate::rings::Rings;
use crate::room;

/// The file, or what is wrong with the list.
pub fn file_of(source: &[u8]) -> Result<Vec<u8>, String> {
    let rings = Rings::of(source)?;
    room::written(LONGEST_RING_TABLE, |room| {
        write_ring_table(&rings.words, room).map_err(|refusal| rings.refused(refusal))
    })
}
