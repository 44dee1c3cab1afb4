//! Table files in which it matters which states can be reached from the start: fixed ones and generated ones, all accepted.

use crate::random::Random;
use crate::redrawn::{place, shuffled};
use crate::table::{Table, MOST_OPERATIONS, MOST_STATES};
use crate::table_cases::Case;
use crate::table_file::TableFile;

/// The operations of a file that are reading though they move some state: one that can't be reached.
pub fn moving_out_of_reach(file: &[u8]) -> Vec<usize> {
    let Ok(table) = Table::check(file) else {
        return Vec::new();
    };
    let table = table.with_changing_noted();
    let moves = |operation: &usize| (0..table.states).any(|state| table.reply(state, *operation).moved);
    let reading = (0..table.operations).filter(|&operation| !table.is_changing(operation));
    reading.filter(moves).collect()
}

/// Whether a file has such an operation.
pub fn moves_unreachable_alone(file: &[u8]) -> bool {
    !moving_out_of_reach(file).is_empty()
}

/// A table whose operations keep every state; a state answers its number.
fn keeping(states: usize, operations: usize, start: usize) -> TableFile {
    let row = |state: usize| vec![(state as u8, state as u8); operations];
    let entries: Vec<(u8, u8)> = (0..states).flat_map(row).collect();
    TableFile::plain(states as u16, operations as u16, start as u16, &entries)
}

fn lead(file: &mut TableFile, state: usize, operation: usize, next: usize) {
    let at = place(file, state, operation);
    file.entries[at] = next as u8;
}

pub fn fixed_reach_cases() -> Vec<Case> {
    let case = |(name, file): (String, TableFile)| Case {
        name,
        file: file.to_bytes(),
    };
    let tables = [small_tables(), chains(), largest_chains()].concat();
    tables.into_iter().map(case).collect()
}

/// Small tables, named by what they show.
fn small_tables() -> Vec<(String, TableFile)> {
    let spare = |start| TableFile {
        start,
        ..TableFile::spare_state()
    };
    let named = |(name, file): (&str, TableFile)| (name.to_string(), file);
    [
        ("a spare state behind the others", spare(0)),
        ("a spare state, from the second state", spare(1)),
        ("from the state that was spare", spare(2)),
        ("a state that another operation reaches", by_another(2)),
        ("the same, in two steps", by_another(3)),
        ("the same, one step too far", by_another(4)),
        ("reached states 3 and 1, state 0 moved", apart(0)),
        ("reached states 3 and 1, state 1 moved", apart(1)),
        ("reached states 3 and 1, state 2 moved", apart(2)),
        ("reached states 3 and 1, state 3 moved", apart(3)),
        ("every operation in turn on the way", in_turn(7)),
        ("every operation in turn, the last state left out", in_turn(6)),
    ]
    .map(named)
    .into()
}

/// From state 1, operation 1 leads to 2 and from there to 3. Operation 0 moves one state alone.
fn by_another(moved: usize) -> TableFile {
    let mut file = keeping(5, 2, 1);
    lead(&mut file, 1, 1, 2);
    lead(&mut file, 2, 1, 3);
    lead(&mut file, moved, 0, 1);
    file
}

/// From state 3, operation 1 leads to 1 and back: in the order of first meeting these are the places 0 and 1. Operation 0
/// moves one state alone.
fn apart(moved: usize) -> TableFile {
    let mut file = keeping(4, 2, 3);
    lead(&mut file, 3, 1, 1);
    lead(&mut file, 1, 1, 3);
    lead(&mut file, moved, 0, (moved + 2) % 4);
    file
}

/// From state 7 so many steps downwards, each by the next of three operations; the fourth moves state 0 alone.
fn in_turn(steps: usize) -> TableFile {
    let mut file = keeping(8, 4, 7);
    for step in 0..steps {
        lead(&mut file, 7 - step, step % 3, 6 - step);
    }
    lead(&mut file, 0, 3, 7);
    file
}

/// The orders in which all states are met along a chain.
fn orders(states: usize) -> [(&'static str, Vec<usize>); 3] {
    [
        ("upwards", (0..states).collect()),
        ("downwards", (0..states).rev().collect()),
        ("in no order", shuffled(states, &mut Random::new(states as u64))),
    ]
}

/// Has an operation lead along some states, from each to the next.
fn lead_along(file: &mut TableFile, states: &[usize], operation: usize) {
    for step in states.windows(2) {
        lead(file, step[0], operation, step[1]);
    }
}

/// Operation 1 leads along a chain of all states, or to the last but one. Operation 0 moves the last alone; 2 keeps all.
fn chains() -> Vec<(String, TableFile)> {
    let mut tables = Vec::new();
    for states in [2, 3, 16, 17, 255, 256] {
        for (name, order) in orders(states) {
            for met in [states, states - 1] {
                let mut file = keeping(states, 3, order[0]);
                lead_along(&mut file, &order[..met], 1);
                lead(&mut file, order[states - 1], 0, order[0]);
                tables.push((format!("{met} of {states} states met {name}"), file));
            }
        }
    }
    tables
}

/// Of 256 states so many are met along the last of 32 operations. Each of the others moves one state alone: the last that
/// is met, the first that isn't, or another one.
fn largest_chains() -> Vec<(String, TableFile)> {
    let mut tables = Vec::new();
    for (name, order) in orders(MOST_STATES) {
        for met in [1, 2, 128, 255, 256] {
            let mut file = keeping(MOST_STATES, MOST_OPERATIONS, order[0]);
            lead_along(&mut file, &order[..met], MOST_OPERATIONS - 1);
            for operation in 0..MOST_OPERATIONS - 1 {
                lead(&mut file, order[place_moved(operation, met)], operation, order[0]);
            }
            let name = format!("{met} of 256 states met {name}, 32 operations");
            tables.push((name, file));
        }
    }
    tables
}

/// The place in the chain of the state that an operation moves; at place 0 it moves none.
fn place_moved(operation: usize, met: usize) -> usize {
    match operation {
        0 => met - 1,
        1 => met % MOST_STATES,
        _ => operation * (MOST_STATES - 1) / (MOST_OPERATIONS - 2),
    }
}

/// A generated table; the seed alone decides it.
pub fn random_reach_case(seed: u64) -> Case {
    let mut random = Random::new(seed);
    let file = random_reach_table(&mut random);
    let length = *random.pick(&[0, 0, 0, 1, 40]);
    Case {
        name: format!("seed {seed} (reachable or not)"),
        file: file.with_text(random.bytes(length)).to_bytes(),
    }
}

/// Some operations lead along a chain of states in any order, and from the others anywhere. Most of the other operations
/// move one state: the last of the chain, one behind it, or any.
pub fn random_reach_table(random: &mut Random) -> TableFile {
    let states = size(MOST_STATES, 12, random);
    let operations = size(MOST_OPERATIONS, 6, random);
    let (order, numbers) = (shuffled(states, random), shuffled(operations, random));
    let met = random.between(1, states);
    let (carriers, others) = numbers.split_at(random.between(1, 3.min(operations - 1)));
    let mut file = keeping(states, operations, order[0]);
    for step in 1..met {
        lead(&mut file, order[step - 1], *random.pick(carriers), order[step]);
    }
    for &state in &order[met..] {
        for &operation in carriers {
            lead(&mut file, state, operation, random.below(states));
        }
    }
    for &operation in others {
        let moved = match random.below(4) {
            0 => met - 1,
            1 => met % states,
            2 => random.below(states),
            _ => continue,
        };
        lead(&mut file, order[moved], operation, order[random.below(met)]);
    }
    for response in file.entries.iter_mut().skip(1).step_by(2) {
        *response = random.byte();
    }
    file
}

/// Two at least: mostly small, sometimes the largest, or any.
fn size(largest: usize, small: usize, random: &mut Random) -> usize {
    match random.below(10) {
        0 => largest,
        1 => random.between(2, largest),
        _ => random.between(2, small),
    }
}

#[cfg(test)]
mod tests {
    use super::*;
    use crate::reachable::reachable;
    use crate::table::check_report;

    fn reports(tables: Vec<(String, TableFile)>) -> Vec<String> {
        let report = |(_, file): (String, TableFile)| check_report(&file.to_bytes());
        tables.into_iter().map(report).collect()
    }

    #[test]
    fn small_tables_show_what_their_names_say() {
        let expected = [
            "ok 3 2 0 01",
            "ok 3 2 1 01",
            "ok 3 2 2 11",
            "ok 5 2 1 11",
            "ok 5 2 1 11",
            "ok 5 2 1 01",
            "ok 4 2 3 01",
            "ok 4 2 3 11",
            "ok 4 2 3 01",
            "ok 4 2 3 11",
            "ok 8 4 7 1111",
            "ok 8 4 7 1110",
        ];
        let lines = expected.map(|line| format!("{line}\n"));
        assert_eq!(reports(small_tables()), lines);
    }

    /// Of two states the chain to the last but one has no step.
    #[test]
    fn the_last_state_of_a_chain_makes_an_operation_changing_if_it_is_met() {
        for (place, report) in reports(chains()).iter().enumerate() {
            let flags = match (place % 2, place < 6) {
                (0, _) => " 110\n",
                (_, true) => " 000\n",
                (_, false) => " 010\n",
            };
            assert!(report.ends_with(flags), "{place}: {report}");
        }
    }

    #[test]
    fn in_the_largest_chains_an_operation_is_changing_if_its_state_is_met() {
        for (name, file) in largest_chains() {
            let file = file.to_bytes();
            let table = Table::check(&file).unwrap();
            let met = reachable(&table).len();
            assert!(name.starts_with(&format!("{met} of 256 states")), "{name}");
            for operation in 0..MOST_OPERATIONS - 1 {
                let moves = (1..met).contains(&place_moved(operation, met));
                assert_eq!(table.is_changing(operation), moves, "{name}, {operation}");
            }
        }
    }

    #[test]
    fn generated_tables_are_valid_and_the_seed_decides_them() {
        for seed in 0..300 {
            let file = random_reach_case(seed).file;
            assert!(Table::check(&file).is_ok(), "seed {seed}");
            assert_eq!(file, random_reach_case(seed).file);
        }
    }

    /// How many tables of a list have an operation that is changing by some states, and not by those that can be reached,
    /// or the other way round.
    fn judged_otherwise(by: impl Fn(&Table) -> Vec<usize>) -> usize {
        let otherwise = |file: &Vec<u8>| {
            let table = Table::check(file).unwrap();
            let states = by(&table);
            let changing = |operation| states.iter().any(|&state| table.reply(state, operation).moved);
            (0..table.operations).any(|operation| changing(operation) != table.is_changing(operation))
        };
        let files = (0..2_000).map(|seed| random_reach_case(seed).file);
        files.filter(otherwise).count()
    }

    /// By all states, by the start alone, by the start and what it leads to, by as many states from 0 up as can be reached,
    /// and by all that can be reached but the highest or the lowest.
    #[test]
    fn many_generated_tables_tell_the_rule_from_wrong_ones() {
        let reached = |table: &Table| Vec::from_iter(reachable(table));
        let near = |table: &Table| Vec::from_iter(table.next_states(table.start).chain([table.start]));
        for otherwise in [
            judged_otherwise(|table| (0..table.states).collect()),
            judged_otherwise(|table| vec![table.start]),
            judged_otherwise(near),
            judged_otherwise(|table| (0..reachable(table).len()).collect()),
            judged_otherwise(|table| reached(table).split_last().unwrap().1.to_vec()),
            judged_otherwise(|table| reached(table)[1..].to_vec()),
        ] {
            assert!(otherwise >= 200, "{otherwise} of 2,000");
        }
    }
}
