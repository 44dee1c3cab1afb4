//! Whether the jack console can force a target, compared with the second program; each strategy that is printed is played.

use crate::page::page_shows;
use crate::program::{drive, drive_among, Ran};
use crate::questions::Question;
use crate::strategies::Play;
use reference::force::{force, Force};
use reference::force_cases::{fixed_cases, large_cases, longest_cases, random_case, Case};
use reference::random::Random;
use reference::refusal::Refusal;
use reference::table::Table;
use reference::table_cases::{fixed_cases as fixed_files, random_case as random_file};
use reference::table_file::TableFile;
use reference::trace_event::refused;
use std::collections::BTreeMap;

const RANDOM_CASES: u64 = 80;
const LARGE_PAIRS: u64 = 10;
/// In so many more generated tables a question is looked for to which only the most moves are enough.
const RANDOM_LONG: u64 = 1_000;
const LONG: &str = "yes to 4, 4 enough";

/// How often something was seen.
#[derive(Default)]
struct Counts(BTreeMap<String, usize>);

impl Counts {
    fn add(&mut self, what: &str) {
        *self.0.entry(what.into()).or_default() += 1;
    }

    fn at_least(&self, what: &str, least: usize) {
        let count = self.0.get(what).copied().unwrap_or(0);
        assert!(count >= least, "{count} of '{what}'");
    }
}

/// Puts a question, and compares what is printed with the second program's answer.
fn compare(question: &Question, random: &mut Random, counts: &mut Counts) {
    let ran = question.asked(random);
    match force(&question.file, question.state, &question.targets, question.moves) {
        Ok(answer @ Force::Loses) => {
            assert_eq!(ran.no(), format!("{}\n", question.answer_words(answer)))
        }
        Ok(answer) => {
            let text = ran.text();
            let lines: Vec<&str> = text.lines().collect();
            assert_eq!(lines[0], question.answer_words(answer));
            match answer {
                Force::Wins(_) => play(question, &lines[1..], counts),
                _ => assert_eq!(lines.len(), 1),
            }
        }
        Err(Refusal::Question) => assert_eq!(ran.failure(), question.refusal_words()),
        Err(refusal) => panic!("{refusal:?}"),
    }
}

fn play(question: &Question, lines: &[&str], counts: &mut Counts) {
    let seen = Play::follow(question, lines);
    counts.add(&format!("up to {} moves", seen.longest));
    if seen.any_operation {
        counts.add("any operation");
    }
    if seen.joined {
        counts.add("joined");
    }
}

/// What kind of answer a question has, and for a yes the fewest moves that are enough.
fn kind(file: &[u8], (state, targets, moves): (usize, &[u8], usize)) -> String {
    let answer = |moves| force(file, state, targets, moves);
    let enough = || (1..).find(|moves| answer(*moves) != Ok(Force::Loses));
    match answer(moves) {
        Ok(Force::Reached) => "reached".into(),
        Ok(Force::Wins(_)) => format!("yes to {moves}, {} enough", enough().unwrap_or(0)),
        Ok(Force::Loses) => format!("no to {moves}"),
        Err(_) if answer(1).is_ok() => format!("refused for {moves} moves"),
        Err(_) if force(file, 0, targets, moves).is_ok() => "refused for the state".into(),
        Err(_) => "refused for both".into(),
    }
}

/// Puts a question of each wanted kind that a planner can put: with targets, each a state. Some tables get names.
fn compare_case(case: &Case, wanted: fn(&str) -> bool, random: &mut Random, counts: &mut Counts) {
    let states = Table::check(&case.file).expect("a table").states;
    let typed = |targets: &[u8]| {
        targets.len() == states && targets.contains(&1) && targets.iter().all(|byte| *byte < 2)
    };
    let mut kinds: BTreeMap<String, Vec<_>> = BTreeMap::new();
    for question in case.questions().filter(|(_, targets, _)| typed(targets)) {
        kinds
            .entry(kind(&case.file, question))
            .or_default()
            .push(question);
    }
    for (kind, questions) in kinds.into_iter().filter(|(kind, _)| wanted(kind)) {
        let (state, targets, moves) = *random.pick(&questions);
        let question = Question::new(&case.file, state, moves, targets);
        match states <= 64 && random.chance(1, 2) {
            true => compare(&question.named(), random, counts),
            false => compare(&question, random, counts),
        }
        counts.add(&kind);
    }
}

#[test]
fn answers_are_those_of_the_second_program_and_strategies_win() {
    let (mut random, mut counts) = (Random::new(7), Counts::default());
    let generated = (0..RANDOM_CASES).map(random_case);
    let large = (0..LARGE_PAIRS).flat_map(large_cases);
    for case in fixed_cases().chain(generated).chain(large) {
        compare_case(&case, |_| true, &mut random, &mut counts);
    }
    for case in (RANDOM_CASES..RANDOM_CASES + RANDOM_LONG).map(random_case) {
        compare_case(&case, |kind| kind == LONG, &mut random, &mut counts);
    }
    for moves in 1..=4 {
        for enough in 1..=moves {
            counts.at_least(&format!("yes to {moves}, {enough} enough"), 10);
        }
        counts.at_least(&format!("no to {moves}"), 30);
        counts.at_least(&format!("up to {moves} moves"), 10);
    }
    for what in [
        "reached",
        "refused for 0 moves",
        "refused for 5 moves",
        "refused for the state",
        "refused for both",
    ] {
        counts.at_least(what, 10);
    }
    for what in ["any operation", "joined"] {
        counts.at_least(what, 30);
    }
}

/// With 32 operations.
#[test]
fn the_questions_with_most_turns_are_answered() {
    let (mut random, mut counts) = (Random::new(1), Counts::default());
    for case in longest_cases() {
        compare_case(&case, |_| true, &mut random, &mut counts);
    }
    counts.at_least("no to 4", 1);
    counts.at_least(LONG, 1);
}

/// Asks for a table that is kept in a file meanwhile.
fn ask(table: &[u8], words: &[&str]) -> Ran {
    let words = [&["force", "table.bin"], words].concat();
    drive_among(&[("table.bin", table)], &words, b"")
}

fn example(name: &str) -> Vec<u8> {
    drive(&["table", &format!("examples/{name}.txt")], b"").out
}

#[test]
fn the_flag_is_set_at_once_or_read_first() {
    let asked = |moves| ask(&example("flag"), &["down", moves, "up"]).text();
    for (moves, within) in [("1", "1 move"), ("2", "2 moves")] {
        let expected = format!(
            "yes: from state 0 down the jack console forces state 1 up within {within}, opening with operation 1 set\n\
             \x20 console 1 set -> state 1 up, a target\n"
        );
        assert_eq!(asked(moves), expected);
    }
    for (moves, first, second) in [("3", "2 moves", "1 move"), ("4", "3 moves", "2 moves")] {
        let expected = format!(
            "yes: from state 0 down the jack console forces state 1 up within {moves} moves, \
             opening with operation 0 read\n\
             \x20 console 0 read -> state 0 down, {first} left\n\
             \x20   link 0 read, 2 clear -> state 0 down, {second} left\n\
             \x20     console 1 set -> state 1 up, a target\n\
             \x20   link 1 set -> state 1 up, a target\n"
        );
        assert_eq!(asked(moves), expected);
    }
    let reached = "yes: state 1 up is a target already, and no move is needed\n";
    assert_eq!(ask(&example("flag"), &["up", "1", "up"]).text(), reached);
    let from_input = drive(&["force", "-", "up", "1", "up"], &example("flag"));
    assert_eq!(from_input.text(), reached);
}

/// From state 1 operation 0 leads to the target, and operation 1 back: the link has one way out, always.
#[test]
fn one_way_out_is_enough_for_the_link() {
    let table = TableFile::plain(3, 2, 0, &[(1, 0), (1, 0), (2, 0), (0, 0), (2, 0), (2, 0)]).to_bytes();
    let said = |within: &str, why: &str| {
        format!("no: from state 0 the jack console can't force state 2 within {within}: {why}\n")
    };
    let alone = said("1 move", "no operation leads there");
    assert_eq!(ask(&table, &["0", "1", "2"]).no(), alone);
    for moves in ["2", "3", "4"] {
        let kept = said(
            &format!("{moves} moves"),
            "no operation that it may open with does",
        );
        assert_eq!(ask(&table, &["0", moves, "2"]).no(), kept);
    }
}

/// All that lead to one state stand together, more than three in a row by the first and the last.
#[test]
fn replies_of_the_link_stand_together() {
    let replies = [2, 2, 2, 2, 1, 2, 2, 1, 2, 2, 2, 3].map(|next| (next, 0));
    let entries = [[(1, 0); 12], replies, [(3, 0); 12], [(3, 0); 12]].concat();
    let table = TableFile::plain(4, 12, 0, &entries).to_bytes();
    assert_eq!(
        ask(&table, &["0", "4", "3", "2", "3"]).text(),
        "yes: from state 0 the jack console forces one of states 2, 3 within 4 moves, opening with operation 0\n\
         \x20 console 0 -> state 1, 3 moves left\n\
         \x20   link 0 to 3, 5, 6, 8, 9, 10 -> state 2, a target\n\
         \x20   link 4, 7 -> state 1, 2 moves left\n\
         \x20     console 0 -> state 2, a target\n\
         \x20   link 11 -> state 3, a target\n"
    );
    let rest = ask(&table, &["1", "1", "0"]).no();
    assert!(rest.starts_with("no: from state 1 the jack console can't force state 0 within 1 move: "));
}

const REASON: &str = "refused with 19: the moves are not 1 to 4, the state is not below the states, \
     or the targets are not a byte, 0 or 1, for each state";

#[test]
fn a_question_that_is_refused_says_what_is_out_of_range() {
    let (most, has) = (
        "moves are 1 to 4, of both sides together",
        "the table has states 0 to 1",
    );
    for (state, moves, about, range) in [
        ("2", "4", "state 2", has),
        ("65536", "1", "state 65536", has),
        ("18446744073709551615", "1", "state 18446744073709551615", has),
        ("down", "0", "a game of 0 moves", most),
        ("1", "5", "a game of 5 moves", most),
        ("0", "257", "a game of 257 moves", most),
        ("0", "4294967297", "a game of 4294967297 moves", most),
        (
            "256",
            "256",
            "a game of 256 moves from state 256",
            &format!("{most}, and {has}"),
        ),
    ] {
        let said = ask(&example("flag"), &[state, moves, "up"]).failure();
        assert_eq!(said, format!("drive: {about} is {REASON}; {range}\n"));
    }
}

#[test]
fn words_that_are_no_states_or_no_moves_are_named() {
    let flag = example("flag");
    for word in ["", "x", "-1", "+1", "1.0", "18446744073709551616"] {
        let moves = ask(&flag, &["0", word, "1"]).failure();
        let most = "moves are 1 to 4, of both sides together";
        assert_eq!(moves, format!("drive: '{word}' is no number of moves: {most}\n"));
        let has = "the table has states 0 to 1, with names";
        let state = ask(&flag, &[word, "1", "1"]).failure();
        assert_eq!(state, format!("drive: '{word}' is no state: {has}\n"));
        let target = ask(&flag, &["0", "1", "up", word]).failure();
        assert_eq!(target, format!("drive: '{word}' is no target: {has}\n"));
    }
    for target in ["2", "256", "Up", "set"] {
        let said = ask(&flag, &["0", "1", "1", target, "0"]).failure();
        assert!(
            said.starts_with(&format!("drive: '{target}' is no target: the table has ")),
            "{said}"
        );
    }
}

#[test]
fn a_table_without_names_has_states_by_number() {
    let flag = TableFile::flag();
    let misfit = flag.clone().with_text(b"states: up\n".to_vec());
    let alone = TableFile::plain(1, 1, 0, &[(0, 0)]);
    for (table, has) in [
        (flag, "states 0 to 1, without names"),
        (
            misfit,
            "states 0 to 1; the text's line 'states:' is not used: it has 1 names for 2",
        ),
        (alone, "state 0 alone, without names"),
    ] {
        let said = ask(&table.to_bytes(), &["up", "1", "0"]).failure();
        assert_eq!(said, format!("drive: 'up' is no state: the table has {has}\n"));
    }
}

/// Whatever the question is.
#[test]
fn refusals_of_tables_are_those_of_the_second_program() {
    let mut numbers = BTreeMap::new();
    let generated = (0..100).map(random_file);
    for case in fixed_files().into_iter().chain(generated) {
        let Err(refusal) = Table::check(&case.file) else {
            continue;
        };
        for words in [["0", "1", "0"], ["999", "9", "x"]] {
            let said = ask(&case.file, &words).failure();
            let expected = format!("drive: the table is {}\n", refused(refusal));
            assert_eq!(said, expected, "{}", case.name);
        }
        *numbers.entry(refusal.number()).or_insert(0) += 1;
    }
    assert_eq!(Vec::from_iter(numbers.into_keys()), [1, 2, 3, 4]);
    let endless = drive(&["force", "/dev/zero", "0", "1", "0"], b"").failure();
    assert_eq!(
        endless,
        format!("drive: the table is {}\n", refused(Refusal::File))
    );
}

#[test]
fn the_page_has_what_is_said_of_the_example() {
    let heading = example("heading");
    let among = |words: &[&str]| drive_among(&[("heading.bin", &heading)], words, b"");
    for (words, yes) in [
        (["on-line", "2", "locked"], true),
        (["on-line", "1", "locked"], false),
        (["astray", "3", "on-line"], true),
    ] {
        let words = [&["force", "heading.bin"], &words[..]].concat();
        let ran = among(&words);
        page_shows(&words.join(" "), &if yes { ran.text() } else { ran.no() });
    }
}
