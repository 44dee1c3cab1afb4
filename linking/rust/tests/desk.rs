//! The ring desk, compared with the second program: owners, written files with all that stands around them, and runs on the
//! written tables.

mod both;
mod random_calls;
mod rooms;

use std::collections::BTreeSet;

use both::{By, Lent};
use drive_object::{Progress, Refusal, LONGEST_FILE, MOST_RINGS};
use random_calls::random_call;
use reference::desk_cases::{cases, WRONG_KINDS, WRONG_LENGTHS};
use reference::random::Random;
use reference::{desk, refusal};
use rooms::Compared;

/// The numbers of rings whose tables runs are made on.
const COUNTS: [usize; 4] = [1, 2, 3, MOST_RINGS];
const CALLS: usize = 10_000;

/// The operations of a written table.
const READ: usize = 0;
const BUILD: usize = 1;
const TAKE_OUT: usize = 2;
const OPERATIONS: usize = 3;

/// How many owners were compared, with the numbers of the answers, 0 for an accepted call, and how much of the tables.
#[derive(Default)]
struct Desk {
    owners: usize,
    by_owner: BTreeSet<u8>,
    tables: Compared,
}

impl Desk {
    fn owner(&mut self, rings: &[u32], chainage: u64, name: &str) {
        let ours = drive_object::owner(rings, chainage).map_err(Refusal::number);
        let theirs = desk::owner(rings, chainage).map_err(refusal::Refusal::number);
        assert_eq!(ours, theirs, "{name}, chainage {chainage}");
        self.owners += 1;
        self.by_owner.insert(ours.err().unwrap_or(0));
    }

    fn table(&mut self, rings: &[u32], length: usize, name: &str) {
        let ours = |room: &mut [u8]| drive_object::write_ring_table(rings, room);
        let theirs = |room: &mut [u8]| desk::write_ring_table(rings, room);
        self.tables.write(length, name, ours, theirs);
    }
}

/// Wrong words in every place of a longest list, each with a chainage that the first ring would own and one that none would,
/// and with a room that would be long enough and one that wouldn't.
fn wrong_words_everywhere(compared: &mut Desk) {
    for at in 0..2 * MOST_RINGS {
        let wrong: &[u32] = [&WRONG_LENGTHS[..], &WRONG_KINDS][at % 2];
        for word in wrong {
            let mut rings = [1, 0].repeat(MOST_RINGS);
            rings[at] = *word;
            let name = format!("word {at} is {word}");
            for chainage in [0, u64::MAX] {
                compared.owner(&rings, chainage, &name);
            }
            for length in [0, LONGEST_FILE] {
                compared.table(&rings, length, &name);
            }
        }
    }
}

#[test]
fn owners_and_files_are_those_of_the_second_program() {
    let mut compared = Desk::default();
    for case in cases() {
        for chainage in &case.chainages {
            compared.owner(&case.rings, *chainage, &case.name);
        }
        for length in &case.rooms {
            compared.table(&case.rings, *length, &case.name);
        }
    }
    wrong_words_everywhere(&mut compared);
    assert_eq!(compared.by_owner, BTreeSet::from([0, 14, 15]));
    assert_eq!(compared.tables.numbers, BTreeSet::from([0, 14, 16]));
    let (answers, files) = (compared.owners + compared.tables.answers, compared.tables.files);
    println!("desk: {answers} answers and {files} files compared");
}

/// The table that the archive writes for a number of rings.
fn written(count: usize) -> Vec<u8> {
    let mut room = vec![0; LONGEST_FILE];
    let length = drive_object::write_ring_table(&[1, 0].repeat(count), &mut room).expect("a list in range");
    room.truncate(length as usize);
    room
}

/// Runs of one to eight tasks on the table of each number of rings, by the calls on the row and by those on a record.
fn for_all_runs(mut run: impl FnMut(usize, Lent)) {
    for count in COUNTS {
        for by in By::EACH {
            for tasks in 1..=8 {
                let mut lent = Lent::new(by, written(count), tasks);
                assert_eq!(lent.start(), 0);
                run(count, lent);
            }
        }
    }
}

/// A whole operation of one task, the others standing still; its response, and whether the state moved.
fn operate(lent: &mut Lent, task: usize, operation: usize) -> (usize, bool) {
    assert_eq!(lent.begin(task, operation), 0);
    loop {
        if let Progress::Ended { response, moved, .. } = lent.step(task).expect("a step of a run") {
            return (usize::from(response), moved);
        }
    }
}

/// Builds all rings and once more, reads, and takes all out and once more; tasks take turns.
#[test]
fn operations_on_written_tables_count_the_rings() {
    for_all_runs(|count, mut lent| {
        let tasks = lent.row.len();
        let builds = (0..=count).map(|built| (BUILD, built, built < count));
        let takes = (0..=count).rev().map(|built| (TAKE_OUT, built, built > 0));
        let all = builds
            .chain([(READ, count, false)])
            .chain(takes)
            .chain([(READ, 0, false)]);
        for (place, (operation, response, moved)) in all.enumerate() {
            assert_eq!(operate(&mut lent, place % tasks, operation), (response, moved));
        }
    });
}

#[test]
fn runs_on_written_tables_are_those_of_the_second_program() {
    let (mut calls, mut ended) = (0, 0);
    for_all_runs(|_, mut lent| {
        let mut random = Random::new(lent.row.len() as u64);
        for _ in 0..CALLS {
            let made = random_call(&mut lent, OPERATIONS, &mut random);
            ended += usize::from(matches!(made, Some(Progress::Ended { .. })));
        }
        calls += CALLS;
    });
    println!("desk: {calls} calls on written tables compared, which ended {ended} operations");
}
