//! The canonical writer, compared with the second program: written files with all that stands around them, refusals, and
//! pairs of tables, which have equal files exactly if the second program finds a renumbering.

mod rooms;

use std::collections::BTreeSet;

use drive_object::{Refusal, Shape, LONGEST_CANONICAL};
use reference::canonical::{self, canonical};
use reference::canonical_cases::{
    damaged_table, fixed_pairs, fixed_tables, random_pair, rooms as rooms_for, written_length, Pair,
    RANDOM_DAMAGED, RANDOM_PAIRS,
};
use reference::reachable::reachable;
use reference::refusal;
use reference::renumbering::same;
use reference::table::Table;
use reference::table_cases::{self, Case};
use rooms::Compared;

/// Of the files of table cases these many are generated.
const RANDOM_FILES: u64 = 2_700;
/// Of the generated pairs one in so many is written to every room.
const PAIRS_WITH_ALL_ROOMS: usize = 4;

/// Writes a file to rooms of all lengths about its own and about that of what is written.
fn write_to_all_rooms(compared: &mut Compared, file: &[u8], name: &str) {
    let lent = file.to_vec();
    for length in rooms_for(file) {
        let ours = |room: &mut [u8]| {
            let answer = drive_object::write_canonical(&lent, room);
            assert_eq!(lent, file, "{name}, the table is left");
            answer
        };
        let theirs = |room: &mut [u8]| canonical::write_canonical(file, room);
        compared.write(length, name, ours, theirs);
    }
}

fn print(compared: &Compared, what: &str) {
    let (answers, files) = (compared.answers, compared.files);
    println!("canonical: {answers} answers and {files} files compared, {what}");
}

/// What check answers, by the archive and by the second program; the refusal's number, 0 if it is accepted.
fn checked(case: &Case) -> u8 {
    let ours = drive_object::check(&case.file).map_err(Refusal::number);
    let theirs = Table::check(&case.file).map(|table| Shape {
        states: table.states as u16,
        operations: table.operations as u16,
        start: table.start as u16,
    });
    assert_eq!(ours, theirs.map_err(refusal::Refusal::number), "{}", case.name);
    ours.err().unwrap_or(0)
}

/// What the archive writes for an accepted file, into a room that is long enough for every one.
fn written(file: &[u8], name: &str) -> Vec<u8> {
    let mut room = vec![0; LONGEST_CANONICAL];
    let length = drive_object::write_canonical(file, &mut room).map_err(Refusal::number);
    assert_eq!(length.err(), None, "{name}");
    room.truncate(length.unwrap_or(0) as usize);
    room
}

/// The file that the archive writes: the second program's, accepted, with start 0 and the states that can be reached, as
/// long as these need, and written again the same.
fn written_and_tested(file: &[u8], name: &str) -> Vec<u8> {
    let output = written(file, name);
    assert_eq!(Ok(&output), canonical(file).as_ref(), "{name}");
    let table = Table::check(file).expect("an accepted file");
    let shape = Shape {
        states: reachable(&table).len() as u16,
        operations: table.operations as u16,
        start: 0,
    };
    assert_eq!(drive_object::check(&output), Ok(shape), "{name}");
    assert_eq!(output.len(), written_length(&table), "{name}");
    assert_eq!(written(&output, name), output, "{name}, written again");
    output
}

/// Whether the files of a pair are one object: by the search, by the bytes that are written, and by how they were made.
fn one_object(pair: &Pair) -> bool {
    let [one, other] = &pair.files;
    let found = same(one, other);
    assert_eq!(found, pair.same.unwrap_or(found), "{}", pair.name);
    let equal = written_and_tested(one, &pair.name) == written_and_tested(other, &pair.name);
    assert_eq!(equal, found, "{}", pair.name);
    found
}

#[test]
fn files_of_a_pair_are_equal_exactly_if_both_tables_are_one_object() {
    let generated = (0..RANDOM_PAIRS).map(random_pair);
    let (mut pairs, mut one) = (0, 0);
    for pair in fixed_pairs().into_iter().chain(generated) {
        pairs += 1;
        one += usize::from(one_object(&pair));
    }
    println!("canonical: {pairs} pairs compared, of which {one} are one object");
}

#[test]
fn the_longest_written_file_is_as_long_as_said() {
    let lengths = fixed_tables()
        .into_iter()
        .map(|case| written(&case.file, &case.name).len());
    assert_eq!(lengths.max(), Some(LONGEST_CANONICAL));
}

#[test]
fn rooms_are_those_of_the_second_program() {
    let mut compared = Compared::default();
    for case in fixed_tables() {
        write_to_all_rooms(&mut compared, &case.file, &case.name);
    }
    for seed in (0..RANDOM_PAIRS).step_by(PAIRS_WITH_ALL_ROOMS) {
        let pair = random_pair(seed);
        for file in &pair.files {
            write_to_all_rooms(&mut compared, file, &pair.name);
        }
    }
    assert_eq!(compared.numbers, BTreeSet::from([0, 16]));
    print(
        &compared,
        "of accepted tables in rooms about the lengths of both files",
    );
}

/// Every refused file is tried with rooms that are too short for anything and with one that is long enough.
#[test]
fn refusals_are_those_of_the_second_program() {
    let mut compared = Compared::default();
    let mut causes = BTreeSet::new();
    let generated = (0..RANDOM_FILES).map(table_cases::random_case);
    let damaged = (0..RANDOM_DAMAGED).map(damaged_table);
    for case in table_cases::fixed_cases()
        .into_iter()
        .chain(generated)
        .chain(damaged)
    {
        causes.insert(checked(&case));
        write_to_all_rooms(&mut compared, &case.file, &case.name);
    }
    assert_eq!(causes, BTreeSet::from([0, 1, 2, 3, 4]));
    assert_eq!(compared.numbers, BTreeSet::from([0, 1, 2, 3, 4, 16]));
    print(&compared, "of tables at every limit of 1 to 4");
}

extern "C" {
    fn drive_canonical(file: *const u8, file_length: usize, room: *mut u8, room_length: usize) -> u64;
}

/// The word has the length in its high half or the number in its low byte, and nothing else.
#[test]
fn words_have_nothing_beside_the_number_and_the_length() {
    let longer_than_16_bits = Case {
        name: "the flag before 65,536 bytes".into(),
        file: [fixed_tables()[0].file.clone(), vec![0; 1 << 16]].concat(),
    };
    let tables = fixed_tables().into_iter().chain(table_cases::fixed_cases());
    for case in tables.chain([longer_than_16_bits]) {
        for length in rooms_for(&case.file) {
            let mut room = vec![0; length];
            let expected = match canonical::write_canonical(&case.file, &mut room.clone()) {
                Ok(length) => u64::from(length) << 32,
                Err(refusal) => u64::from(refusal.number()),
            };
            let (file, lent) = (&case.file, &mut room);
            // SAFETY: each pointer comes with the length of its own vector, which nobody else has meanwhile.
            let word = unsafe { drive_canonical(file.as_ptr(), file.len(), lent.as_mut_ptr(), lent.len()) };
            assert_eq!(word, expected, "{}, a room of {length} bytes", case.name);
        }
    }
}
