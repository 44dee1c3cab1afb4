//! Files that the library writes into lent room.

/// The file that a call writes, which answers the file's length. The lent room takes the longest.
pub fn written(
    longest: usize,
    write: impl FnOnce(&mut [u8]) -> Result<u32, String>,
) -> Result<Vec<u8>, String> {
    let mut room = vec![0; longest];
    let length = write(&mut room)?;
    match room.get(..length as usize) {
        Some(file) => Ok(file.to_vec()),
        None => Err(format!(
            "the library names {length} bytes of a room of {longest} bytes"
        )),
    }
}
