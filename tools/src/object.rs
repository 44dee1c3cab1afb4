//! An object file that the library serves, and its parts by their places in the file.

use drive_object::{check, Shape};

use crate::names::Names;
use crate::refused;

/// Bytes of the trailer at the file's end.
const TRAILER: usize = 16;

/// The trailer's last bytes.
const MARK: &[u8; 6] = b"DRIVE1";

/// A file that check has accepted.
pub struct Object<'a> {
    file: &'a [u8],
    pub shape: Shape,
}

/// What an operation leads to in a state.
#[derive(Clone, Copy, PartialEq, Eq, Debug)]
pub struct Entry {
    pub next: u8,
    pub response: u8,
}

impl Object<'_> {
    /// The object of a file, or the refusal in words.
    pub fn of(file: &[u8]) -> Result<Object<'_>, String> {
        let shape = check(file).map_err(|refusal| format!("the table is {}", refused::in_words(refusal)))?;
        Ok(Object { file, shape })
    }

    pub fn states(&self) -> usize {
        usize::from(self.shape.states)
    }

    pub fn operations(&self) -> usize {
        usize::from(self.shape.operations)
    }

    /// The free text before the entries.
    pub fn text(&self) -> &[u8] {
        let entries = 2 * self.states() * self.operations();
        &self.file[..self.file.len() - TRAILER - entries]
    }

    pub fn state_names(&self) -> Names {
        Names::in_text(self.text(), "state", self.states())
    }

    pub fn operation_names(&self) -> Names {
        Names::in_text(self.text(), "operation", self.operations())
    }

    /// Entries run by state, then by operation.
    pub fn entry(&self, state: usize, operation: usize) -> Entry {
        let at = self.text().len() + 2 * (state * self.operations() + operation);
        Entry {
            next: self.file[at],
            response: self.file[at + 1],
        }
    }
}

/// The file of an object: text, entries, trailer.
pub fn file(text: &[u8], shape: Shape, entries: &[Entry]) -> Vec<u8> {
    let mut file = text.to_vec();
    file.extend(entries.iter().flat_map(|entry| [entry.next, entry.response]));
    file.extend((text.len() as u32).to_le_bytes());
    for field in [shape.states, shape.operations, shape.start] {
        file.extend(field.to_le_bytes());
    }
    file.extend(MARK);
    file
}
