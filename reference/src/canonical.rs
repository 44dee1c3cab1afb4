//! One file for one object: the writer drops the states that can't be reached from the start, numbers the others in the
//! order of first meeting, and writes no text.

use std::collections::VecDeque;

use crate::refusal::Refusal;
use crate::table::{Table, MOST_STATES};
use crate::table_file::TableFile;

/// The states met so far: each by its number, and the number of each.
struct Met {
    states: Vec<usize>,
    numbers: [Option<u8>; MOST_STATES],
}

impl Met {
    /// The start alone, which is number 0.
    fn start(state: usize) -> Met {
        let mut met = Met {
            states: Vec::new(),
            numbers: [None; MOST_STATES],
        };
        met.meet(state);
        met
    }

    /// Gives a state the next number if it has none; whether this is its first meeting.
    fn meet(&mut self, state: usize) -> bool {
        let first = self.numbers[state].is_none();
        if first {
            self.numbers[state] = Some(self.states.len() as u8);
            self.states.push(state);
        }
        first
    }

    fn number(&self, state: u16) -> u8 {
        self.numbers[usize::from(state)].expect("a state that was met")
    }
}

/// The file of the object that a table draws.
pub fn canonical(file: &[u8]) -> Result<Vec<u8>, Refusal> {
    let table = Table::check(file)?;
    let met = met_from_start(&table);
    let (states, operations) = (met.states.len() as u16, table.operations as u16);
    let entries = renumbered_entries(&table, &met);
    Ok(TableFile::plain(states, operations, 0, &entries).to_bytes())
}

/// Writes the file to the beginning of the room; its length in bytes.
pub fn write_canonical(file: &[u8], room: &mut [u8]) -> Result<u32, Refusal> {
    let written = canonical(file)?;
    if room.len() < written.len() {
        return Err(Refusal::Room);
    }
    room[..written.len()].copy_from_slice(&written);
    Ok(written.len() as u32)
}

/// A state waits from its first meeting until it is its turn: the first that came is taken first, so states are taken in
/// the order of their numbers.
fn met_from_start(table: &Table) -> Met {
    let mut met = Met::start(table.start);
    let mut waiting = VecDeque::from([table.start]);
    while let Some(state) = waiting.pop_front() {
        for operation in 0..table.operations {
            let next = usize::from(table.entry(state, operation).next);
            if met.meet(next) {
                waiting.push_back(next);
            }
        }
    }
    met
}

/// The rows of the states that were met, in the order of their numbers, each next state by its number.
fn renumbered_entries(table: &Table, met: &Met) -> Vec<(u8, u8)> {
    let mut entries = Vec::new();
    for &state in &met.states {
        let row = (0..table.operations).map(|operation| table.entry(state, operation));
        entries.extend(row.map(|entry| (met.number(entry.next), entry.response as u8)));
    }
    entries
}

#[cfg(test)]
mod tests {
    use super::*;
    use crate::canonical_cases::{five_states, fixed_tables, four_states, random_pair, ring, rooms};
    use crate::table_cases;

    /// What is written for a table without text, its entries given as (next state, response).
    fn of(states: u16, operations: u16, start: u16, entries: &[(u8, u8)]) -> Vec<u8> {
        canonical(&TableFile::plain(states, operations, start, entries).to_bytes()).unwrap()
    }

    /// A file from start 0.
    fn file(states: u16, operations: u16, entries: &[(u8, u8)]) -> Vec<u8> {
        TableFile::plain(states, operations, 0, entries).to_bytes()
    }

    #[test]
    fn the_flag_file_gives_itself() {
        let flag = TableFile::flag().to_bytes();
        assert_eq!(canonical(&flag), Ok(flag));
    }

    #[test]
    fn from_start_1_the_flag_has_its_states_exchanged() {
        let bytes = [
            0x00, 0x01, 0x00, 0x01, 0x01, 0x01, 0x01, 0x00, 0x00, 0x00, 0x01, 0x00, 0x00, 0x00, 0x00, 0x00,
            0x02, 0x00, 0x03, 0x00, 0x00, 0x00, 0x44, 0x52, 0x49, 0x56, 0x45, 0x31,
        ];
        let mut flag = TableFile::flag();
        flag.start = 1;
        assert_eq!(canonical(&flag.to_bytes()), Ok(bytes.to_vec()));
    }

    #[test]
    fn four_states_from_start_2_are_met_as_2_3_1_0() {
        let written = [
            (1, 20),
            (2, 21),
            (1, 30),
            (0, 31),
            (3, 10),
            (2, 11),
            (0, 0),
            (3, 1),
        ];
        assert_eq!(canonical(&four_states().to_bytes()), Ok(file(4, 2, &written)));
    }

    /// 3 is met before 1, so what 3 leads to is met before what 1 leads to.
    #[test]
    fn of_two_states_the_one_met_first_is_taken_first() {
        let rows = [(1, 2, 0), (3, 1, 3), (4, 2, 1), (3, 3, 2), (4, 4, 4)];
        let written = rows.map(|(by_0, by_1, response)| [(by_0, response), (by_1, response)]);
        assert_eq!(
            canonical(&five_states().to_bytes()),
            Ok(file(5, 2, &written.concat()))
        );
    }

    #[test]
    fn a_spare_state_is_dropped_before_and_after_the_start() {
        assert_eq!(of(2, 1, 1, &[(1, 5), (1, 6)]), file(1, 1, &[(0, 6)]));
        assert_eq!(of(2, 1, 0, &[(0, 6), (0, 5)]), file(1, 1, &[(0, 6)]));
    }

    #[test]
    fn text_is_dropped() {
        for length in [1, 4_096] {
            let flag = TableFile::flag().with_text(vec![b'1'; length]);
            assert_eq!(canonical(&flag.to_bytes()), Ok(TableFile::flag().to_bytes()));
        }
    }

    #[test]
    fn a_ring_of_256_states_from_state_7_begins_at_its_start() {
        let written: Vec<(u8, u8)> = (0..=255u8)
            .map(|number| (number.wrapping_add(1), number.wrapping_add(7)))
            .collect();
        assert_eq!(canonical(&ring(1, 7, 1).to_bytes()), Ok(file(256, 1, &written)));
    }

    #[test]
    fn written_again_the_file_stays() {
        let fixed = fixed_tables().into_iter().map(|case| case.file);
        for file in fixed.chain((0..2_000).flat_map(|seed| random_pair(seed).files)) {
            let written = canonical(&file).unwrap();
            assert_eq!(canonical(&written), Ok(written));
        }
    }

    #[test]
    fn causes_1_to_4_are_those_of_check() {
        let fixed = table_cases::fixed_cases().into_iter();
        for case in fixed.chain((0..500).map(table_cases::random_case)) {
            let checked = Table::check(&case.file).err();
            for length in [0, 16, 20_496] {
                let mut room = vec![0xa5; length];
                let written = write_canonical(&case.file, &mut room);
                match checked {
                    None => assert!(matches!(written, Ok(_) | Err(Refusal::Room)), "{}", case.name),
                    Some(cause) => {
                        assert_eq!((written, room), (Err(cause), vec![0xa5; length]), "{}", case.name)
                    }
                }
            }
        }
    }

    #[test]
    fn a_state_that_is_not_reached_is_tested_for_4() {
        let file = TableFile::plain(2, 1, 0, &[(0, 0), (2, 0)]).to_bytes();
        assert_eq!(canonical(&file), Err(Refusal::NextState));
    }

    #[test]
    fn the_room_is_measured_by_the_written_file_and_its_rest_stays() {
        for case in fixed_tables() {
            let written = canonical(&case.file).unwrap();
            for length in rooms(&case.file) {
                let mut room = vec![0xa5; length];
                let answer = write_canonical(&case.file, &mut room);
                if length < written.len() {
                    assert_eq!((answer, room), (Err(Refusal::Room), vec![0xa5; length]));
                    continue;
                }
                assert_eq!(answer, Ok(written.len() as u32), "{}", case.name);
                let rest = vec![0xa5; length - written.len()];
                assert_eq!(room, [written.as_slice(), &rest].concat(), "{}", case.name);
            }
        }
    }
}
