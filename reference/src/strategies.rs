//! Whether a target is forced, found by trying all strategies of both sides, apart from the levels of `force`. A history is
//! the list of operations made so far. A strategy of a side is a function that gives it an operation after each history.

use std::collections::BTreeMap;

use crate::force::{force, Force, MOST_MOVES, TARGET};
use crate::force_cases::random_case;
use crate::table::Table;
use crate::table_file::TableFile;

type History = Vec<usize>;

/// The operation after each history that ends where it is the side's turn.
type Strategy = BTreeMap<History, usize>;

/// All strategies of both sides for a number of moves.
struct Strategies {
    moves: usize,
    jack: Vec<Strategy>,
    link: Vec<Strategy>,
}

impl Strategies {
    /// The jack console moves after an even number of operations, the link after an odd one.
    fn all(operations: usize, moves: usize) -> Strategies {
        let with_turns_from = |first: usize| {
            let lengths = (first..moves).step_by(2);
            let histories: Vec<History> = lengths.flat_map(|length| histories(operations, length)).collect();
            functions(&histories, operations)
        };
        Strategies {
            moves,
            jack: with_turns_from(0),
            link: with_turns_from(1),
        }
    }

    /// Those of the jack console that begin with an operation.
    fn beginning_with(&self, first: usize) -> impl Iterator<Item = &Strategy> {
        self.jack
            .iter()
            .filter(move |strategy| strategy[&History::new()] == first)
    }

    /// Some strategy of the jack console with this first operation meets a target against every one of the link.
    fn forces(&self, game: &Game, first: usize) -> bool {
        self.beginning_with(first).any(|jack| {
            self.link
                .iter()
                .all(|link| game.meets_target(jack, link, self.moves))
        })
    }

    /// Some strategy of the link keeps out of every target against every one of the jack console with this first operation.
    fn avoids(&self, game: &Game, first: usize) -> bool {
        self.link.iter().any(|link| {
            self.beginning_with(first)
                .all(|jack| !game.meets_target(jack, link, self.moves))
        })
    }

    /// Either the jack console forces a target with this first operation, or the link keeps out of all.
    fn forced(&self, game: &Game, first: usize) -> bool {
        let forced = self.forces(game, first);
        assert_eq!(self.avoids(game, first), !forced);
        forced
    }
}

/// All histories of a length.
fn histories(operations: usize, length: usize) -> Vec<History> {
    let mut histories = vec![History::new()];
    for _ in 0..length {
        let longer = |history: &History| with_each(operations, |last| [history.as_slice(), &[last]].concat());
        histories = histories.iter().flat_map(longer).collect();
    }
    histories
}

/// All functions from these histories to operations.
fn functions(histories: &[History], operations: usize) -> Vec<Strategy> {
    let mut functions = vec![Strategy::new()];
    for history in histories {
        let extended = |function: &Strategy| {
            with_each(operations, |operation| {
                let added = (history.clone(), operation);
                function.clone().into_iter().chain([added]).collect()
            })
        };
        functions = functions.iter().flat_map(extended).collect();
    }
    functions
}

fn with_each<T>(operations: usize, made: impl Fn(usize) -> T) -> Vec<T> {
    (0..operations).map(made).collect()
}

/// What is played: a table, its targets, and the state at the outset.
struct Game<'a> {
    table: Table<'a>,
    targets: &'a [u8],
    state: usize,
}

impl Game<'_> {
    /// Whether there is a target at the outset or after one of so many moves.
    fn meets_target(&self, jack: &Strategy, link: &Strategy, moves: usize) -> bool {
        let (mut state, mut history) = (self.state, History::new());
        for turn in 0..moves {
            if self.targets[state] == TARGET {
                return true;
            }
            let operation = [jack, link][turn % 2][&history];
            state = usize::from(self.table.entry(state, operation).next);
            history.push(operation);
        }
        self.targets[state] == TARGET
    }

    /// The answer by the meaning of its words.
    fn answer(&self, strategies: &Strategies) -> Force {
        let firsts = 0..self.table.operations;
        let forced: Vec<bool> = firsts.map(|first| strategies.forced(self, first)).collect();
        match forced.iter().position(|&forced| forced) {
            _ if self.targets[self.state] == TARGET => Force::Reached,
            Some(lowest) => Force::Wins(lowest as u16),
            None => Force::Loses,
        }
    }
}

/// The most operations with which all strategies are tried.
const MOST_OPERATIONS: usize = 2;
/// Of so many generated tables those with no more operations are taken.
const GENERATED_TABLES: u64 = 200;

/// For each number of moves, how often each answer was found.
type Found = BTreeMap<usize, BTreeMap<&'static str, usize>>;

fn name(answer: Force) -> &'static str {
    match answer {
        Force::Reached => "reached",
        Force::Wins(0) => "wins by 0",
        Force::Wins(_) => "wins by 1",
        Force::Loses => "loses",
    }
}

/// Asks for every state, by the levels and by all strategies.
fn agreed(file: &[u8], targets: &[u8], strategies: &Strategies, found: &mut Found) {
    let table = Table::check(file).expect("an accepted file");
    for state in 0..table.states {
        let game = Game {
            table,
            targets,
            state,
        };
        let tried = game.answer(strategies);
        let by_levels = force(file, state, targets, strategies.moves);
        assert_eq!(by_levels, Ok(tried), "{file:?}, {targets:?}, state {state}");
        let counts = found.entry(strategies.moves).or_default();
        *counts.entry(name(tried)).or_default() += 1;
    }
}

/// The digits of a number, as many as are asked for.
fn digits(number: usize, base: usize, count: usize) -> impl Iterator<Item = u8> {
    (0..count as u32).map(move |place| (number / base.pow(place) % base) as u8)
}

/// Every table of so many states and operations, all responses 0.
fn every_table(states: usize, operations: usize) -> impl Iterator<Item = Vec<u8>> {
    let count = states * operations;
    (0..states.pow(count as u32)).map(move |number| {
        let entries: Vec<(u8, u8)> = digits(number, states, count).map(|next| (next, 0)).collect();
        TableFile::plain(states as u16, operations as u16, 0, &entries).to_bytes()
    })
}

#[test]
fn there_are_as_many_strategies_as_functions() {
    let counts = |operations, moves| {
        let all = Strategies::all(operations, moves);
        (all.jack.len(), all.link.len())
    };
    assert_eq!([1, 2, 3, 4].map(|moves| counts(1, moves)), [(1, 1); 4]);
    let of_two = [(2, 1), (2, 4), (32, 4), (32, 1_024)];
    assert_eq!([1, 2, 3, 4].map(|moves| counts(2, moves)), of_two);
}

/// With every set of targets.
fn agreed_for_all_targets(file: &[u8], strategies: &Strategies, found: &mut Found) {
    let states = Table::check(file).expect("an accepted file").states;
    for number in 0..1 << states {
        let targets: Vec<u8> = digits(number, 2, states).collect();
        agreed(file, &targets, strategies, found);
    }
}

#[test]
fn the_levels_agree_for_all_tables_of_up_to_three_states_and_two_operations() {
    let mut found = Found::new();
    for moves in 1..=3 {
        for operations in 1..=MOST_OPERATIONS {
            let strategies = Strategies::all(operations, moves);
            let files = (1..=3).flat_map(|states| every_table(states, operations));
            files.for_each(|file| agreed_for_all_targets(&file, &strategies, &mut found));
        }
    }
    assert!(found.values().all(|counts| counts.len() == 4), "{found:?}");
}

/// With their targets of each density.
#[test]
fn the_levels_agree_for_generated_tables_of_up_to_two_operations() {
    let mut found = Found::new();
    for moves in 1..=MOST_MOVES {
        let strategies = [1, MOST_OPERATIONS].map(|operations| Strategies::all(operations, moves));
        for case in (0..GENERATED_TABLES).map(random_case) {
            let operations = Table::check(&case.file).expect("an accepted file").operations;
            let Some(strategies) = strategies.get(operations - 1) else {
                continue;
            };
            for asked in &case.asked {
                agreed(&case.file, &asked.targets, strategies, &mut found);
            }
        }
    }
    for counts in found.values() {
        assert!(
            counts.len() == 4 && counts.values().all(|&count| count > 20),
            "{found:?}"
        );
    }
}
