//! What is said of generated pairs of tables: it agrees with the second program's search for a renumbering, and every named
//! reason is true of the tables themselves and names no more operations than it must.

use crate::program::drive_among;
use reference::canonical_cases::{random_pair, small_pair, Pair};
use reference::reachable::reachable;
use reference::renumbering::same;
use reference::table::Table;
use std::collections::{HashMap, HashSet};
use std::str::FromStr;

const RANDOM_PAIRS: u64 = 600;
const SMALL_PAIRS: u64 = 1_400;
/// Of tables with more pairs of states, a reason is not compared with all that there are.
const MOST_COMPARED: usize = 100;

/// What a line says of the tables A and B.
enum Said {
    Same {
        states: usize,
        operations: usize,
    },
    Operations([usize; 2]),
    Response {
        list: Vec<usize>,
        operation: usize,
        responses: [u16; 2],
    },
    Meeting {
        lists: [Vec<usize>; 2],
        meets: usize,
        parts: usize,
        alike: bool,
    },
}

/// The parts of a line that stand where a form has `_`.
fn parts<'a, const N: usize>(line: &'a str, form: &str) -> Option<[&'a str; N]> {
    let mut pieces = form.split('_');
    let mut rest = line.strip_prefix(pieces.next()?)?;
    let mut parts = Vec::new();
    for piece in pieces {
        let end = if piece.is_empty() {
            rest.len()
        } else {
            rest.find(piece)?
        };
        parts.push(&rest[..end]);
        rest = &rest[end + piece.len()..];
    }
    rest.is_empty().then(|| parts.try_into().expect("as many parts"))
}

fn number<N: FromStr>(word: &str) -> N {
    word.parse().unwrap_or_else(|_| panic!("{word} is no number"))
}

/// The number in words as `1 state` and `2 states`.
fn counted(words: &str, kind: &str) -> usize {
    let (count, counted) = words.split_once(' ').expect("a number and what it counts");
    let ending = if count == "1" { "" } else { "s" };
    assert_eq!(counted, format!("{kind}{ending}"));
    number(count)
}

/// The place of a table by its name.
fn place(name: &str) -> usize {
    let place = ["A", "B"].iter().position(|known| *known == name);
    place.unwrap_or_else(|| panic!("{name} is no table"))
}

/// The list of words as `at the start` and `after operations 1 (5 times) 0`.
fn list_of(words: &str) -> Vec<usize> {
    if words == "at the start" {
        return Vec::new();
    }
    let words = words.strip_prefix("after operation").expect("a list");
    let words = words.strip_prefix('s').unwrap_or(words).strip_prefix(' ');
    let mut list = Vec::new();
    for word in words.expect("operations").replace(" times)", "").split(' ') {
        match word.strip_prefix('(') {
            Some(times) => list.extend(vec![list[list.len() - 1]; number::<usize>(times) - 1]),
            None => list.push(number(word)),
        }
    }
    list
}

fn said(line: &str) -> Said {
    let form = "same: A and B are one object, with _ that can be reached and _\n";
    if let Some([states, operations]) = parts(line, form) {
        return Said::Same {
            states: counted(states, "state"),
            operations: counted(operations, "operation"),
        };
    }
    if let Some([ours, theirs]) = parts(line, "different: A has _ and B has _\n") {
        return Said::Operations([counted(ours, "operation"), number(theirs)]);
    }
    let form = "different: _, operation _ responds _ in A and _ in B\n";
    if let Some([list, operation, ours, theirs]) = parts(line, form) {
        return Said::Response {
            list: list_of(list),
            operation: number(operation),
            responses: [number(ours), number(theirs)],
        };
    }
    let before = line.replace("; their responses never differ\n", "\n");
    let form = "different: _, _ is in the same state as _, and _ is not\n";
    let [second, meets, first, other] = parts(&before, form).unwrap_or_else(|| panic!("{line}"));
    Said::Meeting {
        lists: [first, second].map(list_of),
        meets: place(meets),
        parts: place(other),
        alike: before != line,
    }
}

/// The state that a list of operations leads to.
fn after(table: &Table, list: &[usize]) -> usize {
    let step = |state, operation: &usize| usize::from(table.entry(state, *operation).next);
    list.iter().fold(table.start, step)
}

/// Two tables with equally many operations, and the fewest operations that lead to each pair of states, one of each table.
struct Walked<'a> {
    tables: &'a [Table<'a>; 2],
    fewest: HashMap<[usize; 2], usize>,
}

impl<'a> Walked<'a> {
    fn new(tables: &'a [Table<'a>; 2]) -> Walked<'a> {
        let mut fewest = HashMap::new();
        let mut last = HashSet::from([[0, 1].map(|place| tables[place].start)]);
        for length in 0.. {
            if last.is_empty() {
                break;
            }
            fewest.extend(last.iter().map(|pair| (*pair, length)));
            let next = last.iter().flat_map(|pair| next_pairs(tables, *pair));
            last = next.filter(|pair| !fewest.contains_key(pair)).collect();
        }
        Walked { tables, fewest }
    }

    /// The fewest operations that show differing responses: those of a list, and one more.
    fn fewest_to_response(&self) -> Option<usize> {
        let [one, other] = self.tables;
        let differ = |[ours, theirs]: [usize; 2]| {
            let mut operations = 0..one.operations;
            operations.any(|by| one.entry(ours, by).response != other.entry(theirs, by).response)
        };
        let differing = self.fewest.iter().filter(|(pair, _)| differ(**pair));
        differing.map(|(_, length)| length + 1).min()
    }

    /// The fewest operations of two lists that lead to one state in one of the tables and to two in the other.
    fn fewest_to_meeting(&self) -> Option<usize> {
        let with_some_other = |(one, length): (&[usize; 2], &usize)| {
            let meets = |other: &[usize; 2]| (one[0] == other[0]) != (one[1] == other[1]);
            let others = self.fewest.iter().filter(|(other, _)| meets(other));
            others.map(|(_, other)| length + other).min()
        };
        self.fewest.iter().filter_map(with_some_other).min()
    }

    /// Whether the operation responds so after the list, and no other reason has fewer operations.
    fn responds(&self, list: &[usize], operation: usize, responses: [u16; 2]) -> bool {
        let [one, other] = self.tables;
        let response = |table: &Table| table.entry(after(table, list), operation).response;
        let named = list.len() + 1;
        let no_fewer = self.fewest_to_response() == Some(named)
            && (!self.is_small() || self.fewest_to_meeting().is_none_or(|meeting| named <= meeting));
        responses[0] != responses[1] && responses == [response(one), response(other)] && no_fewer
    }

    /// Whether the lists lead to one state in the one table and to two in the other, no other reason has fewer operations,
    /// and responses, which come first, don't have as few; and whether it is rightly said that responses never differ.
    fn meets(&self, lists: &[Vec<usize>; 2], meets: usize, parts: usize, alike: bool) -> bool {
        let one_state = |place: usize| {
            let [first, second] = [0, 1].map(|list| after(&self.tables[place], &lists[list]));
            first == second
        };
        let named = lists[0].len() + lists[1].len();
        let response = self.fewest_to_response();
        let no_fewer = response.is_none_or(|response| named < response)
            && (!self.is_small() || self.fewest_to_meeting() == Some(named));
        one_state(meets) && !one_state(parts) && alike == response.is_none() && no_fewer
    }

    fn is_small(&self) -> bool {
        self.fewest.len() <= MOST_COMPARED
    }
}

fn next_pairs<'a>(tables: &'a [Table; 2], pair: [usize; 2]) -> impl Iterator<Item = [usize; 2]> + 'a {
    let next = move |place: usize, operation| usize::from(tables[place].entry(pair[place], operation).next);
    (0..tables[0].operations).map(move |operation| [0, 1].map(|place| next(place, operation)))
}

fn is_true(said: &Said, tables: &[Table; 2]) -> bool {
    match said {
        Said::Same { states, operations } => {
            let shape = |table: &Table| (reachable(table).len(), table.operations);
            tables.iter().all(|table| shape(table) == (*states, *operations))
        }
        Said::Operations(counts) => {
            let operations = tables.iter().map(|table| table.operations);
            counts[0] != counts[1] && operations.eq(*counts)
        }
        Said::Response {
            list,
            operation,
            responses,
        } => Walked::new(tables).responds(list, *operation, *responses),
        Said::Meeting {
            lists,
            meets,
            parts,
            alike,
        } => Walked::new(tables).meets(lists, *meets, *parts, *alike),
    }
}

/// What the program says of a pair is what the search finds, and is true of the tables.
fn tested(pair: &Pair) -> Said {
    let [one, other] = &pair.files;
    let ran = drive_among(&[("A", one)], &["same", "A", "-"], other);
    let found = same(one, other);
    let line = if found { ran.text() } else { ran.no() };
    let said = said(&line.replace("the standard input", "B"));
    assert_eq!(matches!(said, Said::Same { .. }), found, "{}: {line}", pair.name);
    let tables = [one, other].map(|file| Table::check(file).expect("an accepted file"));
    assert!(is_true(&said, &tables), "{}: {line}", pair.name);
    said
}

/// Each answer is given more than so often.
fn test(pairs: impl Iterator<Item = Pair>, least: usize) {
    let mut counts = [0; 5];
    for pair in pairs {
        let kind = match tested(&pair) {
            Said::Same { .. } => 0,
            Said::Operations(_) => 1,
            Said::Response { .. } => 2,
            Said::Meeting { alike: true, .. } => 3,
            Said::Meeting { alike: false, .. } => 4,
        };
        counts[kind] += 1;
    }
    assert!(counts.iter().all(|count| *count > least), "{counts:?}");
}

/// Tables of up to 256 states, some with thousands of pairs of states.
#[test]
fn what_is_said_of_generated_tables_is_true() {
    test((0..RANDOM_PAIRS).map(random_pair), 10);
}

/// Tables of up to four states, where every reason is compared with all others.
#[test]
fn what_is_said_of_small_tables_is_true() {
    test((0..SMALL_PAIRS).map(small_pair), 50);
}
