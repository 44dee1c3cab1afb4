//! Writes table files, right ones and wrong ones, for tests and for generated cases.

use crate::table::MARK;

/// The parts of a file, in range or not.
#[derive(Clone, Debug)]
pub struct TableFile {
    pub text: Vec<u8>,
    pub entries: Vec<u8>,
    pub offset: u32,
    pub states: u16,
    pub operations: u16,
    pub start: u16,
    pub mark: [u8; 6],
}

impl TableFile {
    pub fn to_bytes(&self) -> Vec<u8> {
        let mut file = self.text.clone();
        file.extend(&self.entries);
        file.extend(self.offset.to_le_bytes());
        file.extend(self.states.to_le_bytes());
        file.extend(self.operations.to_le_bytes());
        file.extend(self.start.to_le_bytes());
        file.extend(self.mark);
        file
    }

    /// The bytes, kept as long as the program runs: a table reads them in place.
    pub fn kept(&self) -> &'static [u8] {
        self.to_bytes().leak()
    }

    /// A file without text, its entries given as (next state, response), by state and then by operation.
    pub fn plain(states: u16, operations: u16, start: u16, entries: &[(u8, u8)]) -> TableFile {
        TableFile {
            text: Vec::new(),
            entries: entries
                .iter()
                .flat_map(|&(next, response)| [next, response])
                .collect(),
            offset: 0,
            states,
            operations,
            start,
            mark: *MARK,
        }
    }

    /// The same file after some free text, its offset moved along.
    pub fn with_text(mut self, text: Vec<u8>) -> TableFile {
        self.offset = text.len() as u32;
        self.text = text;
        self
    }

    /// An object with a spare state, 2, to which nothing leads. It is the only state that operation 0 moves, so that is
    /// reading; operation 1 turns the other two over. The response tells state and operation apart.
    pub fn spare_state() -> TableFile {
        TableFile::plain(3, 2, 0, &[(0, 10), (1, 11), (1, 20), (0, 21), (0, 30), (2, 31)])
    }

    /// The flag object of docs/FORMATS.md: 0 reads, 1 sets, 2 clears.
    pub fn flag() -> TableFile {
        TableFile::plain(2, 3, 0, &[(0, 0), (1, 0), (0, 0), (1, 1), (1, 1), (0, 1)])
    }
}
