//! Tables for the comparison of the canonical writer, with the rooms to lend: fixed ones, pairs of which the second table
//! draws the first one's object again or with one change, and tables that lead out of range from where no run comes.

use std::collections::BTreeSet;

use crate::random::Random;
use crate::reachable::reachable;
use crate::redrawn::{parted_states, place, renumbered, some_place, with_spare_states, Change};
use crate::table::{Table, MOST_FILE_BYTES, MOST_STATES, MOST_TEXT_BYTES, TRAILER_BYTES};
use crate::table_cases::{random_table, sized, Case};
use crate::table_file::TableFile;

/// How many pairs are generated.
pub const RANDOM_PAIRS: u64 = 20_000;
/// How many tables that lead out of range are generated.
pub const RANDOM_DAMAGED: u64 = 1_000;
/// The most states in a table of a small pair.
pub const SMALL_STATES: usize = 4;
const MOST_SPARE_STATES: usize = 6;
const TEXT_LENGTHS: [usize; 3] = [0, 1, MOST_TEXT_BYTES];

/// Two accepted files.
pub struct Pair {
    pub name: String,
    pub files: [Vec<u8>; 2],
    /// Whether they are the same object, where the way in which they are made decides that.
    pub same: Option<bool>,
}

/// The length of the file that is written for an accepted table.
pub fn written_length(table: &Table) -> usize {
    2 * reachable(table).len() * table.operations + TRAILER_BYTES
}

/// The lengths in bytes of rooms for a file. For an accepted one: none, about the length of the written file, about its own
/// length, between the two, and two of which only the low 16 bits are too few. For a refused one: none, about that of a
/// trailer, its own, and the longest.
pub fn rooms(file: &[u8]) -> BTreeSet<usize> {
    let own = file.len();
    match Table::check(file) {
        Ok(table) => {
            let written = written_length(&table);
            let between = (written + own) / 2;
            BTreeSet::from([
                0,
                written - 1,
                written,
                written + 1,
                between,
                own - 1,
                own,
                own + 1,
                1 << 16,
                (1 << 16) + written - 1,
            ])
        }
        Err(_) => BTreeSet::from([0, 1, 15, 16, 17, own, MOST_FILE_BYTES]),
    }
}

/// Small tables whose file is easily written by hand, and tables at the limits.
pub fn fixed_tables() -> Vec<Case> {
    let case = |(name, table): (&str, TableFile)| Case {
        name: name.to_string(),
        file: table.to_bytes(),
    };
    tables().into_iter().map(case).collect()
}

fn tables() -> Vec<(&'static str, TableFile)> {
    [small_tables(), limit_tables()].concat()
}

fn small_tables() -> Vec<(&'static str, TableFile)> {
    let from_1 = TableFile {
        start: 1,
        ..TableFile::flag()
    };
    vec![
        ("flag", TableFile::flag()),
        ("flag from start 1", from_1),
        ("flag after text", TableFile::flag().with_text(vec![b'1'; 4_096])),
        ("four states met as 2, 3, 1, 0", four_states()),
        ("five states of which two wait at once", five_states()),
        (
            "a spare state before the start",
            TableFile::plain(2, 1, 1, &[(1, 5), (1, 6)]),
        ),
        (
            "a spare state behind the start",
            TableFile::plain(2, 1, 0, &[(0, 6), (0, 5)]),
        ),
        ("smallest", TableFile::plain(1, 1, 0, &[(0, 7)])),
        (
            "one state, 31 operations",
            TableFile::plain(1, 31, 0, &[(0, 7); 31]),
        ),
        (
            "one state, 32 operations",
            TableFile::plain(1, 32, 0, &[(0, 7); 32]),
        ),
    ]
}

fn limit_tables() -> Vec<(&'static str, TableFile)> {
    let text = vec![b' '; MOST_TEXT_BYTES];
    vec![
        ("256 states in a ring", ring(1, 7, 1)),
        ("256 states in a ring, 32 operations", ring(32, 7, 1)),
        ("256 states in a ring, backward", ring(1, 7, 255)),
        ("every other one of 256 states in a ring", ring(2, 7, 2)),
        ("255 of 256 states in a ring", ring_but_one()),
        ("one of 256 states", ring(1, 7, 0)),
        (
            "one of 256 states, longest file",
            ring(32, 7, 0).with_text(text.clone()),
        ),
        ("largest", largest().with_text(text)),
    ]
}

/// State q answers 10 × q + o.
pub fn four_states() -> TableFile {
    let entries = [
        (2, 0),
        (0, 1),
        (0, 10),
        (1, 11),
        (3, 20),
        (1, 21),
        (3, 30),
        (2, 31),
    ];
    TableFile::plain(4, 2, 2, &entries)
}

/// 0 leads to 3 and 1, then 3 leads to 2, and 1 to 4. State q answers q.
pub fn five_states() -> TableFile {
    let entries = [
        (3, 0),
        (1, 0),
        (4, 1),
        (1, 1),
        (2, 2),
        (2, 2),
        (2, 3),
        (3, 3),
        (4, 4),
        (4, 4),
    ];
    TableFile::plain(5, 2, 0, &entries)
}

/// 256 states; the last operation leads so many states on, the others keep every state. State q answers q.
pub fn ring(operations: u8, start: u16, on: u8) -> TableFile {
    let next = |state: u8, operation| match operation + 1 == operations {
        true => state.wrapping_add(on),
        false => state,
    };
    let row = |state| (0..operations).map(move |operation| (next(state, operation), state));
    let entries: Vec<(u8, u8)> = (0..=255).flat_map(row).collect();
    TableFile::plain(256, u16::from(operations), start, &entries)
}

/// The ring from state 7, but state 99 is passed over.
fn ring_but_one() -> TableFile {
    let mut file = ring(1, 7, 1);
    let before = place(&file, 98, 0);
    file.entries[before] = 100;
    file
}

/// 256 states and 32 operations; all states can be reached.
fn largest() -> TableFile {
    let row = |state: u8| (0..32u8).map(move |o| (state.wrapping_mul(5).wrapping_add(7 * o + 1), state ^ o));
    let entries: Vec<(u8, u8)> = (0..=255).flat_map(row).collect();
    TableFile::plain(256, 32, 255, &entries)
}

/// Every fixed table with every one, and with itself drawn again with each change.
pub fn fixed_pairs() -> Vec<Pair> {
    let tables = tables();
    let mut pairs = Vec::new();
    for (name, table) in &tables {
        for (other_name, other) in &tables {
            pairs.push(Pair {
                name: format!("{name}, {other_name}"),
                files: [table, other].map(TableFile::to_bytes),
                same: (name == other_name).then_some(true),
            });
        }
        let mut random = Random::new(1);
        let redrawn = Change::EACH.map(|change| pair(name, table, MOST_STATES, change, &mut random));
        pairs.extend(redrawn);
    }
    pairs
}

/// A generated pair; the seed alone decides it.
pub fn random_pair(seed: u64) -> Pair {
    let mut random = Random::new(seed);
    let object = random_object(&mut random);
    let change = *random.pick(&Change::EACH);
    pair(&format!("seed {seed}"), &object, MOST_STATES, change, &mut random)
}

/// A generated pair of tables with so few states that every renumbering can be tried.
pub fn small_pair(seed: u64) -> Pair {
    let mut random = Random::new(seed);
    let (states, operations) = (random.between(1, SMALL_STATES), random.between(1, 3));
    let start = random.below(states);
    let mut object = sized(states as u16, operations as u16, start as u16, &mut random);
    keep_few_responses(&mut object, &mut random);
    let change = *random.pick(&Change::EACH);
    pair(
        &format!("small, seed {seed}"),
        &object,
        SMALL_STATES,
        change,
        &mut random,
    )
}

/// An object, and the same drawn again with a change; with none if there is nothing to change.
fn pair(name: &str, object: &TableFile, most_states: usize, change: Change, random: &mut Random) -> Pair {
    let most_spare = MOST_SPARE_STATES.min(most_states - usize::from(object.states));
    let spare = random.between(0, most_spare);
    let redrawn = renumbered(&with_spare_states(object, spare, random), random);
    let (change, changed) = match change.made_in(&redrawn, random) {
        Some(changed) => (change, changed),
        None => (Change::Nothing, redrawn),
    };
    Pair {
        name: format!("{name} ({})", change.name()),
        files: [object.clone(), changed].map(|file| with_some_text(file, random)),
        same: change.same(),
    }
}

fn with_some_text(file: TableFile, random: &mut Random) -> Vec<u8> {
    let length = *random.pick(&TEXT_LENGTHS);
    file.with_text(random.bytes(length)).to_bytes()
}

/// Any table, or one whose states lead to near ones, or one whose states all lead on alike.
fn random_object(random: &mut Random) -> TableFile {
    let mut file = random_table(random);
    match random.below(4) {
        0 => lead(&mut file, |state, _| state + random.below(3)),
        1 => lead(&mut file, |state, operation| state + operation + 1),
        _ => (),
    }
    keep_few_responses(&mut file, random);
    file
}

/// Gives every entry its next state, which is counted round.
pub fn lead(file: &mut TableFile, mut next: impl FnMut(usize, usize) -> usize) {
    let states = usize::from(file.states);
    for state in 0..states {
        for operation in 0..usize::from(file.operations) {
            let at = place(file, state, operation);
            file.entries[at] = (next(state, operation) % states) as u8;
        }
    }
}

/// Leaves all responses, or so few that states answer alike: 0 and 1, or 0 alone.
fn keep_few_responses(file: &mut TableFile, random: &mut Random) {
    let kept = *random.pick(&[0, 1, 0xff]);
    for entry in file.entries.chunks_exact_mut(2) {
        entry[1] &= kept;
    }
}

/// A generated table with one next state out of range, in an entry of a state that can't be reached.
pub fn damaged_table(seed: u64) -> Case {
    let mut random = Random::new(seed);
    let (spare, most) = (random.between(1, MOST_SPARE_STATES), *random.pick(&[3, 9, 249]));
    let (states, operations) = (random.between(1, most), random.between(1, 6));
    let object = sized(states as u16, operations as u16, 0, &mut random);
    let mut file = renumbered(&with_spare_states(&object, spare, &mut random), &mut random);
    let (_, unreachable) = parted_states(&file);
    let at = some_place(&file, &unreachable, &mut random).expect("a spare state");
    file.entries[at] = match random.chance(1, 2) {
        true => file.states as u8,
        false => random.between(usize::from(file.states), 255) as u8,
    };
    Case {
        name: format!("seed {seed} (an unreachable next state out of range)"),
        file: with_some_text(file, &mut random),
    }
}

#[cfg(test)]
mod tests {
    use super::*;
    use crate::refusal::Refusal;
    use crate::renumbering::same;
    use std::collections::BTreeMap;

    fn pairs() -> impl Iterator<Item = Pair> {
        (0..RANDOM_PAIRS).map(random_pair)
    }

    /// Of the pairs with each change, how many are not the same object, and how many are.
    fn same_by_change() -> BTreeMap<&'static str, [usize; 2]> {
        let mut counts: BTreeMap<&str, [usize; 2]> = BTreeMap::new();
        for pair in pairs() {
            let [one, other] = &pair.files;
            let found = same(one, other);
            assert_eq!(found, pair.same.unwrap_or(found), "{}", pair.name);
            let mut changes = Change::EACH.into_iter().map(Change::name);
            let change = changes.find(|change| pair.name.ends_with(&format!("({change})")));
            counts.entry(change.unwrap()).or_default()[usize::from(found)] += 1;
        }
        counts
    }

    #[test]
    fn every_change_occurs_often_and_those_that_the_search_decides_go_both_ways() {
        let counts = same_by_change();
        for change in Change::EACH {
            let [other, same] = counts[change.name()];
            assert!(other + same > 2_000, "{counts:?}");
            assert!(
                change.same().is_some() || (other > 500 && same > 50),
                "{counts:?}"
            );
        }
    }

    #[test]
    fn sizes_and_texts_are_at_the_limits_and_between() {
        let (mut states, mut operations, mut lengths) = (BTreeSet::new(), BTreeSet::new(), BTreeSet::new());
        for file in pairs().flat_map(|pair| pair.files) {
            let table = Table::check(&file).unwrap();
            let text = file.len() - 2 * table.states * table.operations - TRAILER_BYTES;
            states.insert(table.states);
            operations.insert(table.operations);
            lengths.insert(text);
        }
        assert!(states.len() > 200 && [1, 255, 256].iter().all(|limit| states.contains(limit)));
        assert_eq!(operations, BTreeSet::from_iter(1..=32));
        assert_eq!(lengths, BTreeSet::from(TEXT_LENGTHS));
    }

    #[test]
    fn the_seed_decides_what_is_generated() {
        for seed in 0..200 {
            assert_eq!(random_pair(seed).files, random_pair(seed).files);
            assert_eq!(small_pair(seed).files, small_pair(seed).files);
            assert_eq!(damaged_table(seed).file, damaged_table(seed).file);
        }
    }

    #[test]
    fn fixed_tables_reach_as_many_states_as_they_say() {
        let reached = |(_, table): &(&str, TableFile)| parted_states(table).0.len();
        let small: Vec<usize> = small_tables().iter().map(reached).collect();
        assert_eq!(small, [2, 2, 2, 4, 5, 1, 1, 1, 1, 1]);
        let limits: Vec<usize> = limit_tables().iter().map(reached).collect();
        assert_eq!(limits, [256, 256, 256, 128, 255, 1, 1, 256]);
        assert_eq!(fixed_tables().last().unwrap().file.len(), MOST_FILE_BYTES);
    }

    #[test]
    fn damaged_tables_are_refused_with_4_though_what_can_be_reached_is_in_range() {
        for seed in 0..RANDOM_DAMAGED {
            let file = damaged_table(seed).file;
            assert_eq!(Table::check(&file), Err(Refusal::NextState));
            let table = Table::read(&file).unwrap();
            for state in reachable(&table) {
                assert!((0..table.operations).all(|operation| table.test_entry(state, operation).is_ok()));
            }
        }
    }
}
