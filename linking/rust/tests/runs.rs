//! Whole runs of one to eight tasks in a random order, every answer, cell and record compared with the second program.

mod both;
mod largest;
mod random_calls;

use both::{By, Lent};
use drive_object::Progress;
use largest::largest;
use random_calls::random_call;
use reference::random::Random;
use reference::table_file::TableFile;

const CALLS: usize = 20_000;
const FEWEST_ENDED: usize = 50;

/// Makes random calls, some of them refused; how many operations ended without moving the state, and how many moved it.
fn run(by: By, file: &TableFile, tasks: usize) -> [usize; 2] {
    let mut random = Random::new(tasks as u64);
    let mut lent = Lent::new(by, file.to_bytes(), tasks);
    assert_eq!(lent.start(), 0);
    let mut ended = [0; 2];
    for _ in 0..CALLS {
        if let Some(Progress::Ended { moved, .. }) =
            random_call(&mut lent, usize::from(file.operations), &mut random)
        {
            ended[usize::from(moved)] += 1;
        }
    }
    ended
}

/// Runs of one to eight tasks, by the calls on the row and by those on a record.
fn all_runs(file: &TableFile) {
    for by in By::EACH {
        for tasks in 1..=8 {
            let [unmoved, moved] = run(by, file, tasks);
            assert!(unmoved > 0 && moved > 0 && unmoved + moved > FEWEST_ENDED);
        }
    }
}

#[test]
fn runs_on_the_flag() {
    all_runs(&TableFile::flag());
}

#[test]
fn runs_on_the_largest_table() {
    all_runs(&largest());
}
