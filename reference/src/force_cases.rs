//! What is asked for the comparison of force: small generated tables from every state with targets of each density, larger
//! ones, questions in range and out of it on tables at the limits and on refused files, and the questions with most turns.

use crate::canonical_cases::{damaged_table, fixed_tables, lead, random_pair, RANDOM_DAMAGED};
use crate::force::{MOST_MOVES, NO_TARGET, TARGET};
use crate::force_tables::{longest_no, longest_yes, tables};
use crate::random::Random;
use crate::redrawn::shuffled;
use crate::table::{Table, MOST_OPERATIONS, MOST_STATES};
use crate::table_cases::{self, sized};
use crate::table_file::TableFile;

/// A file, and what is asked of it.
#[derive(Clone, Debug, PartialEq)]
pub struct Case {
    pub name: String,
    pub file: Vec<u8>,
    pub asked: Vec<Asked>,
}

/// Targets, with the states and the numbers of moves that are asked for, each with each.
#[derive(Clone, Debug, PartialEq)]
pub struct Asked {
    pub targets: Vec<u8>,
    pub states: Vec<usize>,
    pub moves: Vec<usize>,
}

impl Case {
    /// All that is asked: state, targets and moves.
    pub fn questions(&self) -> impl Iterator<Item = (usize, &[u8], usize)> {
        self.asked.iter().flat_map(Asked::questions)
    }
}

impl Asked {
    fn questions(&self) -> impl Iterator<Item = (usize, &[u8], usize)> {
        let of_state = move |&state| {
            self.moves
                .iter()
                .map(move |&moves| (state, &self.targets[..], moves))
        };
        self.states.iter().flat_map(of_state)
    }
}

/// How many small tables are generated, and how large they are at most.
pub const RANDOM_TABLES: u64 = 20_000;
const SMALL_STATES: usize = 8;
const SMALL_OPERATIONS: usize = 4;
/// How many pairs of larger tables are generated, and how many states of each are asked for.
pub const LARGE_PAIRS: u64 = 400;
const STATES_OF_LARGE: usize = 3;
/// Of the files of table cases these many are generated.
const RANDOM_FILES: u64 = 2_700;
/// Bytes that are neither 0 nor 1.
const WRONG_BYTES: [u8; 2] = [2, 255];
/// Numbers of moves in range and out of it; of some the low 8, 16 or 32 bits are in range.
const ALL_MOVES: [usize; 12] = [
    0,
    1,
    2,
    3,
    4,
    5,
    256,
    257,
    65_536,
    65_537,
    1 << 32 | 1,
    usize::MAX,
];

/// A generated small table, asked for every state and 0 to 5 moves with targets of each density; the seed alone decides it. In
/// every second one states lead to near ones, so that some targets are four moves away.
pub fn random_case(seed: u64) -> Case {
    let mut random = Random::new(seed);
    let (states, operations) = (
        random.between(1, SMALL_STATES),
        random.between(1, SMALL_OPERATIONS),
    );
    let start = random.below(states);
    let mut table = sized(states as u16, operations as u16, start as u16, &mut random);
    if random.chance(1, 2) {
        lead(&mut table, |state, _| state + random.below(3));
    }
    let with_targets = |count| Asked {
        targets: some_targets(states, count, &mut random),
        states: (0..states).collect(),
        moves: (0..=MOST_MOVES + 1).collect(),
    };
    Case {
        name: format!("seed {seed}"),
        file: table.to_bytes(),
        asked: (0..=states).map(with_targets).collect(),
    }
}

/// So many of the states are targets.
fn some_targets(states: usize, count: usize, random: &mut Random) -> Vec<u8> {
    let mut targets = vec![NO_TARGET; states];
    for &state in &shuffled(states, random)[..count] {
        targets[state] = TARGET;
    }
    targets
}

/// Generated tables of any size, asked for some states with few targets, half of them and nearly all; the seed alone decides
/// them.
pub fn large_cases(seed: u64) -> [Case; 2] {
    let pair = random_pair(seed);
    let mut random = Random::new(seed);
    pair.files.map(|file| {
        let states = states_of(&file);
        let asked = [1, 2, states / 16, states / 2, states - 1].map(|count| Asked {
            targets: some_targets(states, count.min(states), &mut random),
            states: (0..STATES_OF_LARGE).map(|_| random.below(states)).collect(),
            moves: (1..=MOST_MOVES).collect(),
        });
        Case {
            name: pair.name.clone(),
            file,
            asked: asked.into(),
        }
    })
}

/// The states of a file that passes 1 to 3; one for another.
fn states_of(file: &[u8]) -> usize {
    Table::read(file).map_or(1, |table| table.states)
}

/// Small tables and tables at the limits, with questions in range and out of it.
pub fn fixed_cases() -> impl Iterator<Item = Case> {
    let own = tables().into_iter().map(|(name, table)| table_cases::Case {
        name: name.to_string(),
        file: table.to_bytes(),
    });
    let mut random = Random::new(1);
    fixed_tables().into_iter().chain(own).map(move |table| {
        let states = states_of(&table.file);
        let mut asked = asked_in_full(states, &mut random);
        asked.extend(
            wrong_targets(states)
                .into_iter()
                .map(|targets| asked_at_limits(states, targets)),
        );
        Case {
            name: table.name,
            file: table.file,
            asked,
        }
    })
}

/// Right targets with every state and every number of moves at a limit or past it.
fn asked_in_full(states: usize, random: &mut Random) -> Vec<Asked> {
    let counts = [0, 1, states / 2, states - 1, states];
    let asked = |count| Asked {
        targets: some_targets(states, count, random),
        states: all_states(states),
        moves: ALL_MOVES.into(),
    };
    counts.map(asked).into()
}

/// States and numbers of moves at both limits and beside them.
fn asked_at_limits(states: usize, targets: Vec<u8>) -> Asked {
    Asked {
        targets,
        states: limits_of_states(states),
        moves: vec![0, 1, MOST_MOVES, MOST_MOVES + 1],
    }
}

/// The first and the last state, and the first number that is none.
fn limits_of_states(states: usize) -> Vec<usize> {
    vec![0, states - 1, states]
}

/// States in range and numbers out of it; of some the low 8, 16 or 32 bits are in range.
fn all_states(states: usize) -> Vec<usize> {
    let wide = [
        256,
        65_536,
        65_536 + states - 1,
        (1 << 32) + states - 1,
        usize::MAX,
    ];
    [limits_of_states(states), vec![states + 1], wide.into()].concat()
}

/// Targets of other lengths, and targets with a byte in any one place that is neither 0 nor 1; the others are all 0 or all 1.
fn wrong_targets(states: usize) -> Vec<Vec<u8>> {
    let mut wrong = Vec::new();
    for byte in [NO_TARGET, TARGET] {
        let lengths = [0, states - 1, states + 1, states + 256, states + 65_536];
        wrong.extend(lengths.map(|length| vec![byte; length]));
        for (place, wrong_byte) in (0..states).flat_map(|place| WRONG_BYTES.map(|byte| (place, byte))) {
            let mut targets = vec![byte; states];
            targets[place] = wrong_byte;
            wrong.push(targets);
        }
    }
    wrong
}

/// Files at every limit of 1 to 4, of which some lead out of range where no run comes, each with good and bad questions.
pub fn file_cases() -> impl Iterator<Item = Case> {
    let fixed = table_cases::fixed_cases().into_iter();
    let generated = (0..RANDOM_FILES).map(table_cases::random_case);
    let damaged = (0..RANDOM_DAMAGED).map(damaged_table);
    fixed.chain(generated).chain(damaged).map(|table| {
        let states = states_of(&table.file);
        let targets = [
            vec![NO_TARGET; states],
            vec![TARGET; states],
            vec![WRONG_BYTES[0]; states],
            vec![NO_TARGET; states + 1],
        ];
        Case {
            name: table.name,
            file: table.file,
            asked: targets.map(|targets| asked_at_limits(states, targets)).into(),
        }
    })
}

/// The largest table without a target, and those in which every turn that can be made is looked at, each with 4 moves.
pub fn longest_cases() -> [Case; 3] {
    let case = |name: &str, table: TableFile, target: Option<usize>| {
        let mut targets = vec![NO_TARGET; MOST_STATES];
        target.into_iter().for_each(|state| targets[state] = TARGET);
        Case {
            name: name.to_string(),
            file: table.to_bytes(),
            asked: vec![Asked {
                targets,
                states: vec![0],
                moves: vec![MOST_MOVES],
            }],
        }
    };
    let largest = sized(MOST_STATES as u16, MOST_OPERATIONS as u16, 0, &mut Random::new(1));
    [
        case("no target", largest, None),
        case("every turn, no", longest_no(), Some(1)),
        case("every turn, yes", longest_yes(), Some(1)),
    ]
}

#[cfg(test)]
mod tests {
    use super::*;
    use crate::force::{force, Force};
    use crate::refusal::Refusal;
    use std::collections::BTreeMap;

    fn small_cases() -> impl Iterator<Item = Case> {
        (0..RANDOM_TABLES / 4).map(random_case)
    }

    /// How often each number is answered, 0 if the question is accepted.
    fn numbers(cases: impl Iterator<Item = Case>) -> BTreeMap<u8, usize> {
        let mut counts = BTreeMap::new();
        for case in cases {
            for (state, targets, moves) in case.questions() {
                let answer = force(&case.file, state, targets, moves);
                let number = answer.map_or_else(Refusal::number, |_| 0);
                *counts.entry(number).or_default() += 1;
            }
        }
        counts
    }

    #[test]
    fn every_number_occurs_often() {
        let occurring = |cases: &mut dyn Iterator<Item = Case>| {
            let counts = numbers(cases);
            assert!(counts.values().all(|&count| count > 500), "{counts:?}");
            Vec::from_iter(counts.into_keys())
        };
        assert_eq!(occurring(&mut small_cases()), [0, 19]);
        assert_eq!(occurring(&mut fixed_cases()), [0, 19]);
        assert_eq!(occurring(&mut file_cases()), [0, 1, 2, 3, 4, 19]);
        assert_eq!(occurring(&mut (0..50).flat_map(large_cases)), [0]);
    }

    /// How often each answer is given for each number of moves in range.
    fn answers(cases: impl Iterator<Item = Case>) -> BTreeMap<(usize, String), usize> {
        let mut counts = BTreeMap::new();
        for case in cases {
            for (state, targets, moves) in case.questions() {
                if let Ok(answer) = force(&case.file, state, targets, moves) {
                    *counts.entry((moves, format!("{answer:?}"))).or_default() += 1;
                }
            }
        }
        counts
    }

    #[test]
    fn every_answer_is_given_often_for_every_number_of_moves() {
        let counts = answers(small_cases());
        let each = ["Loses", "Reached", "Wins(0)", "Wins(1)", "Wins(2)", "Wins(3)"];
        for moves in 1..=MOST_MOVES {
            for answer in each {
                let count = counts[&(moves, answer.to_string())];
                assert!(count > 300, "{counts:?}");
            }
        }
        assert_eq!(counts.len(), MOST_MOVES * each.len());
    }

    /// How often one more move turns a no into a yes, and how often it gives a lower operation, by the greater number.
    #[test]
    fn every_number_of_moves_decides_often() {
        let (mut turned, mut lowered) = ([0; MOST_MOVES + 1], [0; MOST_MOVES + 1]);
        for case in small_cases() {
            for (state, targets, moves) in case.questions().filter(|&(_, _, moves)| (2..=4).contains(&moves))
            {
                let answer = |moves| force(&case.file, state, targets, moves).unwrap();
                match (answer(moves - 1), answer(moves)) {
                    (Force::Loses, Force::Wins(_)) => turned[moves] += 1,
                    (Force::Wins(before), Force::Wins(now)) if now < before => lowered[moves] += 1,
                    _ => (),
                }
            }
        }
        let often = |counts: [usize; MOST_MOVES + 1]| counts[2..].iter().all(|&count| count > 300);
        assert!(often(turned) && often(lowered), "{turned:?} {lowered:?}");
    }

    /// The turns that are looked at by who stops at the first operation that decides, and whether a target is forced.
    fn turns(table: &Table, targets: &[u8], state: usize, left: usize, jack: bool) -> (usize, bool) {
        if targets[state] == TARGET || left == 0 {
            return (1, targets[state] == TARGET);
        }
        let mut count = 1;
        for next in table.next_states(state) {
            let (more, forced) = turns(table, targets, next, left - 1, !jack);
            count += more;
            if forced == jack {
                return (count, forced);
            }
        }
        (count, !jack)
    }

    #[test]
    fn in_the_longest_questions_all_turns_are_looked_at() {
        let counted = longest_cases().map(|case| {
            let targets = &case.asked[0].targets;
            turns(&Table::check(&case.file).unwrap(), targets, 0, MOST_MOVES, true)
        });
        let all = (0..=MOST_MOVES as u32)
            .map(|moves| MOST_OPERATIONS.pow(moves))
            .sum();
        assert_eq!(all, 1_082_401);
        assert_eq!(counted[1..], [(all, false), (all, true)]);
        assert!(counted[0].0 < all && !counted[0].1, "{counted:?}");
    }

    #[test]
    fn the_seed_decides_what_is_generated() {
        for seed in 0..200 {
            assert_eq!(random_case(seed), random_case(seed));
            assert_eq!(large_cases(seed), large_cases(seed));
        }
    }

    #[test]
    fn small_tables_have_every_size() {
        let mut sizes: BTreeMap<(usize, usize), usize> = BTreeMap::new();
        for case in small_cases() {
            let table = Table::check(&case.file).unwrap();
            *sizes.entry((table.states, table.operations)).or_default() += 1;
        }
        assert_eq!(sizes.len(), SMALL_STATES * SMALL_OPERATIONS);
        assert!(sizes.values().all(|&count| count > 100), "{sizes:?}");
    }
}
