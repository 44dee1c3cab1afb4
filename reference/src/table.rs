//! The object table: a file of free text, entries and a trailer that points back.

use crate::reachable::reachable;
use crate::refusal::Refusal;
use crate::reply::Reply;

pub const MARK: &[u8; 6] = b"DRIVE1";
pub const TRAILER_BYTES: usize = 16;
pub const MOST_TEXT_BYTES: usize = 4_096;
pub const MOST_FILE_BYTES: usize = 20_496;
pub const MOST_STATES: usize = 256;
pub const MOST_OPERATIONS: usize = 32;
const ENTRY_BYTES: usize = 2;

#[derive(Clone, Copy, Debug, PartialEq, Eq)]
pub struct Entry {
    pub next: u16,
    pub response: u16,
}

/// A table that passes refusals 1 to 3, read in place. Its next states may be out of range: who uses an entry tests it.
#[derive(Clone, Copy, Debug, PartialEq, Eq)]
pub struct Table<'a> {
    pub states: usize,
    pub operations: usize,
    pub start: usize,
    entries: &'a [u8],
    /// A bit for each operation that is changing, if that is noted.
    changing: Option<u32>,
}

/// The fields of the last 16 bytes, before the mark.
struct Trailer {
    offset: u32,
    states: usize,
    operations: usize,
    start: usize,
}

impl<'a> Table<'a> {
    /// Tests 1 to 3 and finds the entries.
    pub fn read(file: &'a [u8]) -> Result<Table<'a>, Refusal> {
        let trailer = read_trailer(file)?;
        test_dimensions(&trailer)?;
        test_length(&trailer, file.len())?;
        let first = trailer.offset as usize;
        let last = file.len() - TRAILER_BYTES;
        Ok(Table {
            states: trailer.states,
            operations: trailer.operations,
            start: trailer.start,
            entries: &file[first..last],
            changing: None,
        })
    }

    /// Tests 1 to 4, the last on all entries.
    pub fn check(file: &'a [u8]) -> Result<Table<'a>, Refusal> {
        let table = Table::read(file)?;
        table.test_all_entries()?;
        Ok(table)
    }

    /// The same table, for who asks often which operations are changing: it is found out once and noted.
    pub fn with_changing_noted(self) -> Table<'a> {
        Table {
            changing: Some(self.changing_operations()),
            ..self
        }
    }

    pub fn entry(&self, state: usize, operation: usize) -> Entry {
        let place = ENTRY_BYTES * (state * self.operations + operation);
        Entry {
            next: u16::from(self.entries[place]),
            response: u16::from(self.entries[place + 1]),
        }
    }

    /// Where each operation leads from a state, from operation 0 up.
    pub fn next_states(&self, state: usize) -> impl Iterator<Item = usize> + '_ {
        (0..self.operations).map(move |operation| usize::from(self.entry(state, operation).next))
    }

    /// What an operation answers that is made in a state.
    pub fn reply(&self, state: usize, operation: usize) -> Reply {
        Reply {
            response: self.entry(state, operation).response,
            moved: self.leads_away(state, operation),
        }
    }

    /// The entry's next state is another than its own.
    fn leads_away(&self, state: usize, operation: usize) -> bool {
        usize::from(self.entry(state, operation).next) != state
    }

    pub fn test_entry(&self, state: usize, operation: usize) -> Result<(), Refusal> {
        if usize::from(self.entry(state, operation).next) < self.states {
            Ok(())
        } else {
            Err(Refusal::NextState)
        }
    }

    pub fn test_operation_entries(&self, operation: usize) -> Result<(), Refusal> {
        (0..self.states).try_for_each(|state| self.test_entry(state, operation))
    }

    pub fn test_all_entries(&self) -> Result<(), Refusal> {
        (0..self.operations).try_for_each(|operation| self.test_operation_entries(operation))
    }

    /// An operation is changing if in some state that can be reached from the start its next state is another one.
    pub fn is_changing(&self, operation: usize) -> bool {
        let changing = self.changing.unwrap_or_else(|| self.changing_operations());
        changing >> operation & 1 == 1
    }

    /// A bit for each operation that is changing.
    fn changing_operations(&self) -> u32 {
        let reached = reachable(self);
        let changing = |&operation: &usize| reached.iter().any(|&state| self.leads_away(state, operation));
        let bits = (0..self.operations)
            .filter(changing)
            .map(|operation| 1 << operation);
        bits.sum()
    }
}

fn read_trailer(file: &[u8]) -> Result<Trailer, Refusal> {
    if file.len() < TRAILER_BYTES || file.len() > MOST_FILE_BYTES || !file.ends_with(MARK) {
        return Err(Refusal::File);
    }
    let trailer = &file[file.len() - TRAILER_BYTES..];
    Ok(Trailer {
        offset: u32::from_le_bytes([trailer[0], trailer[1], trailer[2], trailer[3]]),
        states: two_bytes(trailer, 4),
        operations: two_bytes(trailer, 6),
        start: two_bytes(trailer, 8),
    })
}

fn two_bytes(bytes: &[u8], place: usize) -> usize {
    usize::from(u16::from_le_bytes([bytes[place], bytes[place + 1]]))
}

fn test_dimensions(trailer: &Trailer) -> Result<(), Refusal> {
    let states_fit = (1..=MOST_STATES).contains(&trailer.states);
    let operations_fit = (1..=MOST_OPERATIONS).contains(&trailer.operations);
    if states_fit && operations_fit && trailer.start < trailer.states {
        Ok(())
    } else {
        Err(Refusal::Dimensions)
    }
}

/// The sum is made in 64 bits, so an offset near 2^32 does not wrap.
fn test_length(trailer: &Trailer, length: usize) -> Result<(), Refusal> {
    let entries = ENTRY_BYTES * trailer.states * trailer.operations;
    let asked = u64::from(trailer.offset) + (entries + TRAILER_BYTES) as u64;
    if trailer.offset as usize <= MOST_TEXT_BYTES && asked == length as u64 {
        Ok(())
    } else {
        Err(Refusal::Length)
    }
}

/// What the program `check_table` prints for a file.
pub fn check_report(file: &[u8]) -> String {
    match Table::check(file) {
        Err(refusal) => format!("x {}\n", refusal.number()),
        Ok(table) => {
            let table = table.with_changing_noted();
            let flag = |operation| if table.is_changing(operation) { '1' } else { '0' };
            let flags: String = (0..table.operations).map(flag).collect();
            format!(
                "ok {} {} {} {}\n",
                table.states, table.operations, table.start, flags
            )
        }
    }
}

#[cfg(test)]
mod tests {
    use super::*;
    use crate::table_file::TableFile;

    fn number(file: &[u8]) -> u8 {
        Table::check(file).map_or_else(Refusal::number, |_| 0)
    }

    /// A file of the given size whose entries all lead to state 0.
    fn sized(states: u16, operations: u16) -> TableFile {
        let count = usize::from(states) * usize::from(operations);
        TableFile::plain(states, operations, 0, &vec![(0, 0); count])
    }

    #[test]
    fn the_flag_file_has_its_28_bytes() {
        let bytes = [
            0x00, 0x00, 0x01, 0x00, 0x00, 0x00, 0x01, 0x01, 0x01, 0x01, 0x00, 0x01, 0x00, 0x00, 0x00, 0x00,
            0x02, 0x00, 0x03, 0x00, 0x00, 0x00, 0x44, 0x52, 0x49, 0x56, 0x45, 0x31,
        ];
        assert_eq!(TableFile::flag().to_bytes(), bytes);
        assert_eq!(check_report(&bytes), "ok 2 3 0 011\n");
    }

    #[test]
    fn flag_operation_2_is_changing_and_0_is_reading() {
        let table = Table::check(TableFile::flag().kept()).unwrap();
        assert!(table.is_changing(2));
        assert!(!table.is_changing(0));
    }

    #[test]
    fn short_files_are_refused_with_1() {
        assert_eq!(number(&[]), 1);
        assert_eq!(number(&[0; 15]), 1);
        assert_eq!(number(&TableFile::flag().to_bytes()[13..]), 1);
    }

    #[test]
    fn a_wrong_mark_is_refused_with_1() {
        let mut file = TableFile::flag();
        file.mark = *b"DRIVE2";
        assert_eq!(number(&file.to_bytes()), 1);
    }

    #[test]
    fn a_bare_trailer_has_no_entries() {
        let bare = &TableFile::flag().to_bytes()[12..];
        assert_eq!(bare.len(), 16);
        assert_eq!(number(bare), 3);
    }

    #[test]
    fn states_are_1_to_256() {
        assert_eq!(number(&sized(0, 1).to_bytes()), 2);
        assert_eq!(number(&sized(1, 1).to_bytes()), 0);
        assert_eq!(number(&sized(256, 1).to_bytes()), 0);
        assert_eq!(number(&sized(257, 1).to_bytes()), 2);
    }

    #[test]
    fn operations_are_1_to_32() {
        assert_eq!(number(&sized(1, 0).to_bytes()), 2);
        assert_eq!(number(&sized(1, 1).to_bytes()), 0);
        assert_eq!(number(&sized(1, 32).to_bytes()), 0);
        assert_eq!(number(&sized(1, 33).to_bytes()), 2);
    }

    #[test]
    fn the_start_state_is_below_the_number_of_states() {
        let mut file = TableFile::flag();
        file.start = 1;
        assert_eq!(number(&file.to_bytes()), 0);
        file.start = 2;
        assert_eq!(number(&file.to_bytes()), 2);
    }

    #[test]
    fn the_flag_file_with_offset_1_is_refused_with_3() {
        let mut file = TableFile::flag();
        file.offset = 1;
        assert_eq!(number(&file.to_bytes()), 3);
    }

    #[test]
    fn text_has_at_most_4096_bytes() {
        let longest = TableFile::flag().with_text(vec![b'D'; 4_096]);
        assert_eq!(number(&longest.to_bytes()), 0);
        let longer = TableFile::flag().with_text(vec![b'D'; 4_097]);
        assert_eq!(number(&longer.to_bytes()), 3);
    }

    #[test]
    fn the_longest_file_has_20496_bytes() {
        let longest = sized(256, 32).with_text(vec![0; 4_096]);
        assert_eq!(longest.to_bytes().len(), 20_496);
        assert_eq!(number(&longest.to_bytes()), 0);
        let longer = sized(256, 32).with_text(vec![0; 4_097]);
        assert_eq!(longer.to_bytes().len(), 20_497);
        assert_eq!(number(&longer.to_bytes()), 1);
    }

    #[test]
    fn an_offset_near_the_end_of_32_bits_does_not_wrap() {
        let mut file = TableFile::flag();
        file.entries.clear();
        file.offset = 0u32.wrapping_sub(12);
        assert_eq!(file.to_bytes().len(), 16);
        assert_eq!(number(&file.to_bytes()), 3);
    }

    #[test]
    fn next_state_1_passes_with_2_states_and_next_state_2_does_not() {
        let mut file = TableFile::flag();
        file.entries[10] = 1;
        assert_eq!(number(&file.to_bytes()), 0);
        file.entries[10] = 2;
        assert_eq!(number(&file.to_bytes()), 4);
    }

    #[test]
    fn entries_stand_by_state_then_by_operation() {
        let table = Table::check(TableFile::flag().kept()).unwrap();
        assert_eq!(table.entry(0, 1), Entry { next: 1, response: 0 });
        assert_eq!(table.entry(1, 2), Entry { next: 0, response: 1 });
    }

    #[test]
    fn an_entry_says_whether_the_state_moves() {
        let table = Table::check(TableFile::flag().kept()).unwrap();
        let moved = |state: usize| [0, 1, 2].map(|operation| table.reply(state, operation).moved);
        assert_eq!(moved(0), [false, true, false]);
        assert_eq!(moved(1), [false, false, true]);
        assert_eq!(
            [0, 1, 2].map(|operation| table.reply(1, operation).response),
            [1; 3]
        );
    }

    /// The response and the start state say nothing of it.
    #[test]
    fn an_entry_moves_by_its_own_state_alone() {
        let file = TableFile::plain(3, 1, 1, &[(1, 0), (1, 2), (2, 1)]);
        let table = Table::check(file.kept()).unwrap();
        assert_eq!(
            [0, 1, 2].map(|state| table.reply(state, 0).moved),
            [true, false, false]
        );
    }

    #[test]
    fn entries_are_tested_one_by_one_or_by_operation() {
        let mut file = TableFile::flag();
        file.entries[8] = 9;
        let table = Table::read(file.kept()).unwrap();
        assert_eq!(table.test_entry(1, 1), Err(Refusal::NextState));
        assert_eq!(table.test_entry(0, 1), Ok(()));
        assert_eq!(table.test_operation_entries(1), Err(Refusal::NextState));
        assert_eq!(table.test_operation_entries(2), Ok(()));
    }
}
