//! A table drawn again: its states renumbered at random, with spare states, and with at most one change.

use crate::random::Random;
use crate::reachable::reachable;
use crate::table::{Table, MOST_OPERATIONS};
use crate::table_file::TableFile;

/// What is changed in a table.
#[derive(Clone, Copy, Debug, PartialEq, Eq)]
pub enum Change {
    Nothing,
    ReachableResponse,
    ReachableNext,
    UnreachableResponse,
    Start,
    OneOperationMore,
}

impl Change {
    pub const EACH: [Change; 6] = [
        Change::Nothing,
        Change::ReachableResponse,
        Change::ReachableNext,
        Change::UnreachableResponse,
        Change::Start,
        Change::OneOperationMore,
    ];

    pub fn name(self) -> &'static str {
        match self {
            Change::Nothing => "nothing changed",
            Change::ReachableResponse => "a reachable response changed",
            Change::ReachableNext => "a reachable next state changed",
            Change::UnreachableResponse => "an unreachable response changed",
            Change::Start => "another reachable start",
            Change::OneOperationMore => "one operation more",
        }
    }

    /// Whether the object stays the same, where that is sure. A next state may be replaced by one that does the same, and
    /// from another start the object may look the same.
    pub fn same(self) -> Option<bool> {
        match self {
            Change::Nothing | Change::UnreachableResponse => Some(true),
            Change::ReachableResponse | Change::OneOperationMore => Some(false),
            Change::ReachableNext | Change::Start => None,
        }
    }

    /// The changed table; none if it has nothing to change.
    pub fn made_in(self, file: &TableFile, random: &mut Random) -> Option<TableFile> {
        let (reached, others) = parted_states(file);
        match self {
            Change::Nothing => Some(file.clone()),
            Change::ReachableResponse => other_response(file, &reached, random),
            Change::ReachableNext => other_next(file, &reached, random),
            Change::UnreachableResponse => other_response(file, &others, random),
            Change::Start => other_start(file, &reached, random),
            Change::OneOperationMore => one_operation_more(file, random),
        }
    }
}

/// The states of an accepted table that can be reached, and the others.
pub fn parted_states(file: &TableFile) -> (Vec<usize>, Vec<usize>) {
    let bytes = file.to_bytes();
    let reached = reachable(&Table::check(&bytes).expect("an accepted file"));
    (0..usize::from(file.states)).partition(|state| reached.contains(state))
}

/// The place of an entry's next state; its response stands behind it.
pub fn place(file: &TableFile, state: usize, operation: usize) -> usize {
    2 * (state * usize::from(file.operations) + operation)
}

/// The place of some entry of these states, if there is one.
pub fn some_place(file: &TableFile, states: &[usize], random: &mut Random) -> Option<usize> {
    let state = some(states, random)?;
    Some(place(file, state, random.below(usize::from(file.operations))))
}

fn some(states: &[usize], random: &mut Random) -> Option<usize> {
    (!states.is_empty()).then(|| *random.pick(states))
}

fn other_response(file: &TableFile, states: &[usize], random: &mut Random) -> Option<TableFile> {
    let response = some_place(file, states, random)? + 1;
    let mut changed = file.clone();
    changed.entries[response] ^= *random.pick(&[1, 2, 0x80, 0xff]);
    Some(changed)
}

/// Another next state, every second time one that does what the old one does, if there is one.
fn other_next(file: &TableFile, states: &[usize], random: &mut Random) -> Option<TableFile> {
    let at = some_place(file, states, random)?;
    let old = usize::from(file.entries[at]);
    let mut others: Vec<usize> = (0..usize::from(file.states)).collect();
    others.retain(|&state| state != old);
    let mut alike = others.clone();
    alike.retain(|&state| row_for(file, old, state) == row(file, state));
    let next = match alike.is_empty() || random.chance(1, 2) {
        true => some(&others, random)?,
        false => some(&alike, random)?,
    };
    let mut changed = file.clone();
    changed.entries[at] = next as u8;
    Some(changed)
}

/// The entries of a state.
fn row(file: &TableFile, state: usize) -> &[u8] {
    &file.entries[row_bytes(file) * state..][..row_bytes(file)]
}

/// The entries with which another state does what a state does: where that one stays, the other stays.
fn row_for(file: &TableFile, state: usize, other: usize) -> Vec<u8> {
    let mut row = row(file, state).to_vec();
    for next in row.iter_mut().step_by(2) {
        if usize::from(*next) == state {
            *next = other as u8;
        }
    }
    row
}

fn other_start(file: &TableFile, reached: &[usize], random: &mut Random) -> Option<TableFile> {
    let mut others = reached.to_vec();
    others.retain(|&state| state != usize::from(file.start));
    let mut changed = file.clone();
    changed.start = some(&others, random)? as u16;
    Some(changed)
}

/// The added operation, which is the last one, does what the one before it does, or keeps every state, or does anything.
fn one_operation_more(file: &TableFile, random: &mut Random) -> Option<TableFile> {
    if usize::from(file.operations) == MOST_OPERATIONS {
        return None;
    }
    let kind = random.below(3);
    let mut entries = Vec::new();
    for (state, row) in file.entries.chunks_exact(row_bytes(file)).enumerate() {
        entries.extend(row);
        match kind {
            0 => entries.extend(&row[row.len() - 2..]),
            1 => entries.extend([state as u8, 0]),
            _ => entries.extend(any_entry(usize::from(file.states), random)),
        }
    }
    Some(TableFile {
        entries,
        operations: file.operations + 1,
        ..file.clone()
    })
}

/// The bytes of the entries of a state.
fn row_bytes(file: &TableFile) -> usize {
    2 * usize::from(file.operations)
}

fn any_entry(states: usize, random: &mut Random) -> [u8; 2] {
    [random.below(states) as u8, random.byte()]
}

/// The table with so many states more, which none of the others leads to. They lead anywhere, or do what some other does.
pub fn with_spare_states(file: &TableFile, spare: usize, random: &mut Random) -> TableFile {
    let states = usize::from(file.states);
    let mut entries = file.entries.clone();
    for own in states..states + spare {
        match random.chance(1, 2) {
            true => entries.extend(row_for(file, random.below(states), own)),
            false => entries.extend((0..file.operations).flat_map(|_| any_entry(states + spare, random))),
        }
    }
    TableFile {
        entries,
        states: (states + spare) as u16,
        ..file.clone()
    }
}

/// The table with its states numbered at random.
pub fn renumbered(file: &TableFile, random: &mut Random) -> TableFile {
    let numbers = shuffled(usize::from(file.states), random);
    let mut drawn = file.clone();
    drawn.start = numbers[usize::from(file.start)] as u16;
    for (state, &number) in numbers.iter().enumerate() {
        for operation in 0..usize::from(file.operations) {
            let (from, to) = (place(file, state, operation), place(file, number, operation));
            drawn.entries[to] = numbers[usize::from(file.entries[from])] as u8;
            drawn.entries[to + 1] = file.entries[from + 1];
        }
    }
    drawn
}

/// The numbers below a bound, in any order.
pub fn shuffled(bound: usize, random: &mut Random) -> Vec<usize> {
    let mut numbers: Vec<usize> = (0..bound).collect();
    for last in (1..bound).rev() {
        numbers.swap(last, random.below(last + 1));
    }
    numbers
}

#[cfg(test)]
mod tests {
    use super::*;

    /// State 0 alone is reached; 1 and 2 are not.
    fn resting() -> TableFile {
        TableFile::plain(3, 1, 0, &[(0, 4), (2, 5), (1, 6)])
    }

    fn differing(one: &TableFile, other: &TableFile) -> Vec<usize> {
        let entries = one.entries.iter().zip(&other.entries).enumerate();
        entries
            .filter(|(_, (ours, theirs))| ours != theirs)
            .map(|(at, _)| at)
            .collect()
    }

    #[test]
    fn states_are_parted_by_whether_they_can_be_reached() {
        assert_eq!(parted_states(&resting()), (vec![0], vec![1, 2]));
        assert_eq!(parted_states(&TableFile::flag()), (vec![0, 1], vec![]));
    }

    #[test]
    fn a_change_is_made_in_one_place_of_its_own_part() {
        for seed in 0..100 {
            let mut random = Random::new(seed);
            let mut changed = |change: Change| change.made_in(&resting(), &mut random).unwrap();
            assert_eq!(differing(&resting(), &changed(Change::Nothing)), []);
            assert_eq!(differing(&resting(), &changed(Change::ReachableResponse)), [1]);
            assert_eq!(differing(&resting(), &changed(Change::ReachableNext)), [0]);
            let unreachable = differing(&resting(), &changed(Change::UnreachableResponse));
            assert!(unreachable == [3] || unreachable == [5]);
            assert_eq!(changed(Change::OneOperationMore).operations, 2);
        }
    }

    #[test]
    fn where_there_is_nothing_to_change_nothing_is() {
        let mut random = Random::new(0);
        let mut refuses = |change: Change, file: &TableFile| change.made_in(file, &mut random).is_none();
        let smallest = TableFile::plain(1, 1, 0, &[(0, 0)]);
        assert!(refuses(Change::ReachableNext, &smallest));
        assert!(refuses(Change::UnreachableResponse, &smallest));
        assert!(refuses(Change::Start, &resting()));
        assert!(refuses(
            Change::OneOperationMore,
            &TableFile::plain(1, 32, 0, &[(0, 0); 32])
        ));
    }

    #[test]
    fn the_only_other_start_of_the_flag_is_1() {
        let changed = Change::Start.made_in(&TableFile::flag(), &mut Random::new(0));
        assert_eq!(changed.unwrap().start, 1);
    }

    #[test]
    fn spare_states_stand_behind_the_others_and_can_not_be_reached() {
        for seed in 0..100 {
            let table = with_spare_states(&TableFile::flag(), 3, &mut Random::new(seed));
            assert_eq!(table.entries[..12], TableFile::flag().entries);
            assert_eq!(parted_states(&table), (vec![0, 1], vec![2, 3, 4]));
        }
    }

    #[test]
    fn shuffled_numbers_are_all_there_and_every_order_occurs() {
        let orders: std::collections::BTreeSet<Vec<usize>> =
            (0..200).map(|seed| shuffled(3, &mut Random::new(seed))).collect();
        assert_eq!(orders.len(), 6);
        let mut numbers = shuffled(256, &mut Random::new(0));
        numbers.sort_unstable();
        assert_eq!(numbers, Vec::from_iter(0..256));
    }
}
