//! The question whether the jack console can force a target, compared with the second program: small tables from every state
//! with targets of each density, larger ones, questions and files at every limit, and the questions with most turns.

use std::collections::BTreeSet;
use std::time::{Duration, Instant};

use drive_object::{Force, Refusal, MOST_MOVES};
use reference::force_cases::{
    file_cases, fixed_cases, large_cases, longest_cases, random_case, Case, LARGE_PAIRS, RANDOM_TABLES,
};
use reference::table_file::TableFile;
use reference::{force, refusal};

/// The longest questions are asked so often; the shortest time counts.
const TIMES: usize = 5;
/// Of the small tables so many have their words compared.
const TABLES_WITH_WORDS: u64 = 1_000;

/// What the archive answers, as the second program says it.
fn ours(file: &[u8], state: usize, targets: &[u8], moves: usize) -> Result<force::Force, u8> {
    let answer = drive_object::force(file, state, targets, moves).map_err(Refusal::number)?;
    Ok(match answer {
        Force::Reached => force::Force::Reached,
        Force::Wins(operation) => force::Force::Wins(operation),
        Force::Loses => force::Force::Loses,
    })
}

/// What the second program answers.
fn theirs(file: &[u8], state: usize, targets: &[u8], moves: usize) -> Result<force::Force, u8> {
    force::force(file, state, targets, moves).map_err(refusal::Refusal::number)
}

/// How much was compared, and the numbers of the answers, 0 for an accepted question.
#[derive(Default)]
struct Compared {
    files: usize,
    answers: usize,
    yes: usize,
    numbers: BTreeSet<u8>,
}

impl Compared {
    /// Asks all that a case has, of a copy that must be left.
    fn ask(&mut self, case: &Case) {
        let lent = case.clone();
        for (state, targets, moves) in lent.questions() {
            let answer = ours(&lent.file, state, targets, moves);
            let expected = theirs(&case.file, state, targets, moves);
            assert_eq!(
                answer, expected,
                "{}, state {state}, {moves} moves, targets {targets:?}",
                case.name
            );
            self.answers += 1;
            self.yes += usize::from(answer.is_ok_and(|answer| answer != force::Force::Loses));
            self.numbers.insert(answer.err().unwrap_or(0));
        }
        assert_eq!(&lent, case, "file and targets are left");
        self.files += 1;
    }

    fn all(cases: impl Iterator<Item = Case>) -> Compared {
        let mut compared = Compared::default();
        cases.for_each(|case| compared.ask(&case));
        compared
    }

    fn print(&self, what: &str) {
        let (answers, yes, files) = (self.answers, self.yes, self.files);
        println!("force: {answers} answers compared, of which {yes} are yes, for {files} {what}");
    }
}

#[test]
fn answers_for_small_tables_are_those_of_the_second_program() {
    let compared = Compared::all((0..RANDOM_TABLES).map(random_case));
    assert_eq!(compared.numbers, BTreeSet::from([0, 19]));
    compared.print("tables of up to 8 states and 4 operations");
}

#[test]
fn answers_for_larger_tables_are_those_of_the_second_program() {
    let compared = Compared::all((0..LARGE_PAIRS).flat_map(large_cases));
    assert_eq!(compared.numbers, BTreeSet::from([0]));
    compared.print("tables of up to 256 states and 32 operations");
}

#[test]
fn questions_at_every_limit_are_answered_as_by_the_second_program() {
    let compared = Compared::all(fixed_cases());
    assert_eq!(compared.numbers, BTreeSet::from([0, 19]));
    compared.print("tables with questions at every limit of 19");
}

#[test]
fn files_at_every_limit_are_answered_as_by_the_second_program() {
    let compared = Compared::all(file_cases());
    assert_eq!(compared.numbers, BTreeSet::from([0, 1, 2, 3, 4, 19]));
    compared.print("files at every limit of 1 to 4 with good and bad questions");
}

/// The answer to the one question of a case, and the shortest time that it took.
fn timed(case: &Case) -> (Result<force::Force, u8>, Duration) {
    let (state, targets, moves) = case.questions().next().expect("a question");
    let once = || {
        let before = Instant::now();
        let answer = ours(&case.file, state, targets, moves);
        (answer, before.elapsed())
    };
    let runs = (0..TIMES).map(|_| once());
    runs.min_by_key(|(_, time)| *time).expect("some runs")
}

#[test]
fn the_longest_questions_are_answered_as_by_the_second_program() {
    let mut times = Vec::new();
    for case in longest_cases() {
        let (answer, time) = timed(&case);
        let (state, targets, moves) = case.questions().next().expect("a question");
        let expected = theirs(&case.file, state, targets, moves);
        assert_eq!(answer, expected, "{}", case.name);
        times.push(format!("{} ({})", time.as_micros(), case.name));
    }
    let times = times.join(", ");
    println!("force: with 256 states, 32 operations and 4 moves a question takes in microseconds {times}");
}

/// With three moves or four the jack console may read first.
#[test]
fn the_flag_is_set_at_once_or_read_first() {
    let flag = TableFile::flag().to_bytes();
    let answers = |state| [1, 2, 3, 4].map(|moves| drive_object::force(&flag, state, &[0, 1], moves));
    let expected = [1, 1, 0, 0].map(|operation| Ok(Force::Wins(operation)));
    assert_eq!(answers(0), expected);
    assert_eq!(answers(1), [Ok(Force::Reached); MOST_MOVES]);
    let without_target = drive_object::force(&flag, 0, &[0, 0], MOST_MOVES);
    assert_eq!(without_target, Ok(Force::Loses));
    let too_many = drive_object::force(&flag, 1, &[0, 1], MOST_MOVES + 1);
    assert_eq!(too_many, Err(Refusal::Question));
}

extern "C" {
    fn drive_force(
        file: *const u8,
        file_length: usize,
        state: usize,
        targets: *const u8,
        target_count: usize,
        moves: usize,
    ) -> u64;
}

/// The word by which an answer is given.
fn word_of(answer: Result<force::Force, u8>) -> u64 {
    match answer {
        Err(number) => u64::from(number),
        Ok(force::Force::Loses) => 0,
        Ok(force::Force::Wins(operation)) => 0x100 | u64::from(operation) << 16,
        Ok(force::Force::Reached) => 0x300,
    }
}

#[test]
fn words_have_nothing_beside_the_number_the_two_bits_and_the_operation() {
    let small = (0..TABLES_WITH_WORDS).map(random_case);
    for case in fixed_cases().chain(file_cases()).chain(small) {
        let file = &case.file;
        for (state, targets, moves) in case.questions() {
            // SAFETY: each pointer comes with the length of its own vector, and nothing is written.
            let word = unsafe {
                drive_force(
                    file.as_ptr(),
                    file.len(),
                    state,
                    targets.as_ptr(),
                    targets.len(),
                    moves,
                )
            };
            let expected = word_of(theirs(file, state, targets, moves));
            assert_eq!(word, expected, "{}, state {state}, {moves} moves", case.name);
        }
    }
}
