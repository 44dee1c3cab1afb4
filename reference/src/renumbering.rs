//! When two tables are the same object: the states of one that can be reached become those of the other by a renumbering,
//! start to start. It is looked for here apart from the writer, which gives both the same file, and from its order.

use std::collections::BTreeMap;

use crate::table::Table;

/// Pairs of states, the first of one table and the second of the other, that every renumbering must put together.
#[derive(Default)]
struct Pairs {
    second: BTreeMap<u16, u16>,
    first: BTreeMap<u16, u16>,
    /// The pairs whose next states have not been put together.
    open: Vec<(u16, u16)>,
}

impl Pairs {
    /// Puts two states together; no if one of them is already together with a third.
    fn put(&mut self, first: u16, second: u16) -> bool {
        match (self.second.get(&first), self.first.get(&second)) {
            (None, None) => {
                self.second.insert(first, second);
                self.first.insert(second, first);
                self.open.push((first, second));
                true
            }
            (known, _) => known == Some(&second),
        }
    }
}

/// Whether two accepted files are the same object: the starts go together and, with two states, their next states by every
/// operation; states that go together must have equal responses, and none may go together with two.
pub fn same(one: &[u8], other: &[u8]) -> bool {
    let [one, other] = [one, other].map(accepted);
    one.operations == other.operations && is_renumbered(&one, &other)
}

fn accepted(file: &[u8]) -> Table<'_> {
    Table::check(file).expect("an accepted file")
}

fn is_renumbered(one: &Table, other: &Table) -> bool {
    let mut pairs = Pairs::default();
    pairs.put(one.start as u16, other.start as u16);
    while let Some((first, second)) = pairs.open.pop() {
        for operation in 0..one.operations {
            let ours = one.entry(usize::from(first), operation);
            let theirs = other.entry(usize::from(second), operation);
            if ours.response != theirs.response || !pairs.put(ours.next, theirs.next) {
                return false;
            }
        }
    }
    true
}

#[cfg(test)]
mod tests {
    use super::*;
    use crate::canonical::canonical;
    use crate::canonical_cases::{random_pair, small_pair, SMALL_STATES};
    use crate::reachable::reachable;
    use crate::table_file::TableFile;

    fn plain(states: u16, operations: u16, start: u16, entries: &[(u8, u8)]) -> Vec<u8> {
        TableFile::plain(states, operations, start, entries).to_bytes()
    }

    /// Every order of some states.
    fn orders(states: &[usize]) -> Vec<Vec<usize>> {
        if states.is_empty() {
            return vec![Vec::new()];
        }
        let led_by = |&first: &usize| {
            let others: Vec<usize> = states.iter().copied().filter(|&state| state != first).collect();
            orders(&others)
                .into_iter()
                .map(move |order| [vec![first], order].concat())
        };
        states.iter().flat_map(led_by).collect()
    }

    /// Whether the states of one table, each replaced by that of the other in the same place, have its entries.
    fn replaced(one: &Table, states: &[usize], other: &Table, by: &[usize]) -> bool {
        let by: BTreeMap<usize, usize> = states.iter().copied().zip(by.iter().copied()).collect();
        let alike = |state: &usize, operation| {
            let (ours, theirs) = (one.entry(*state, operation), other.entry(by[state], operation));
            by[&usize::from(ours.next)] == usize::from(theirs.next) && ours.response == theirs.response
        };
        by[&one.start] == other.start
            && states
                .iter()
                .all(|state| (0..one.operations).all(|operation| alike(state, operation)))
    }

    /// Tries every renumbering of the states that can be reached, one by one.
    fn same_by_trying(one: &[u8], other: &[u8]) -> bool {
        let [one, other] = [one, other].map(accepted);
        let [states, others] = [&one, &other].map(|table| Vec::from_iter(reachable(table)));
        one.operations == other.operations
            && states.len() == others.len()
            && orders(&others)
                .iter()
                .any(|by| replaced(&one, &states, &other, by))
    }

    /// All three agree; whether the files are the same object.
    fn agreed(one: &[u8], other: &[u8]) -> bool {
        let by_trying = same_by_trying(one, other);
        assert_eq!(same(one, other), by_trying, "{one:?} {other:?}");
        assert_eq!(canonical(one) == canonical(other), by_trying, "{one:?} {other:?}");
        by_trying
    }

    /// Every table of a number of states with one operation that answers one of the responses.
    fn every_table(states: u8, responses: &[u8]) -> Vec<Vec<u8>> {
        let entries: Vec<(u8, u8)> = (0..states)
            .flat_map(|next| responses.iter().map(move |&response| (next, response)))
            .collect();
        let one_longer = |lists: Vec<Vec<(u8, u8)>>| -> Vec<Vec<(u8, u8)>> {
            lists
                .iter()
                .flat_map(|list| {
                    entries
                        .iter()
                        .map(move |&entry| [list.as_slice(), &[entry]].concat())
                })
                .collect()
        };
        let lists = (0..states).fold(vec![Vec::new()], |lists, _| one_longer(lists));
        let starts = |list: &Vec<(u8, u8)>| {
            let of_start = |start| plain(states.into(), 1, u16::from(start), list);
            (0..states).map(of_start).collect::<Vec<Vec<u8>>>()
        };
        lists.iter().flat_map(starts).collect()
    }

    /// Counted by hand: what can be reached is one state that answers 0 in 36 tables and 1 in 9, two states that answer 0 in
    /// 20 for either way on from the second, two that answer otherwise in 2 for each of 6 objects, and three in 6 for each
    /// of 3. The sum of the squares is the number of pairs.
    #[test]
    fn trying_every_renumbering_finds_the_same_for_all_tables_of_up_to_three_states() {
        let small = [every_table(1, &[0, 1]), every_table(2, &[0, 1])].concat();
        let tables = [small, every_table(3, &[0])].concat();
        assert_eq!(tables.len(), 2 + 32 + 81);
        let same = tables
            .iter()
            .map(|one| tables.iter().filter(|other| agreed(one, other)).count());
        assert_eq!(
            same.sum::<usize>(),
            36 * 36 + 9 * 9 + 2 * 20 * 20 + 6 * 2 * 2 + 3 * 6 * 6
        );
    }

    /// The tables of a pair, and the second one with that of the pair before.
    #[test]
    fn trying_every_renumbering_finds_the_same_for_generated_tables_of_up_to_four_states() {
        let (mut found, mut with_others) = ([0; 2], [0; 2]);
        let mut before = TableFile::flag().to_bytes();
        for seed in 0..20_000 {
            let pair = small_pair(seed);
            let [one, other] = pair.files;
            assert!([&one, &other].map(|file| accepted(file).states <= SMALL_STATES) == [true; 2]);
            let same = agreed(&one, &other);
            assert_eq!(same, pair.same.unwrap_or(same), "{}", pair.name);
            found[usize::from(same)] += 1;
            with_others[usize::from(agreed(&other, &before))] += 1;
            before = other;
        }
        assert!(found.iter().all(|&count| count > 5_000), "{found:?}");
        assert!(with_others.iter().all(|&count| count > 100), "{with_others:?}");
    }

    #[test]
    fn generated_pairs_are_as_their_change_says_and_have_equal_files_exactly_if_they_are_the_same() {
        for seed in 0..2_000 {
            let pair = random_pair(seed);
            let [one, other] = &pair.files;
            let same = same(one, other);
            assert_eq!(same, pair.same.unwrap_or(same), "{}", pair.name);
            assert_eq!(canonical(one) == canonical(other), same, "{}", pair.name);
        }
    }

    #[test]
    fn responses_operations_and_the_start_count() {
        let flag = TableFile::flag();
        let mut other = flag.clone();
        other.entries[1] = 2;
        assert!(!same(&flag.to_bytes(), &other.to_bytes()));
        other = flag.clone();
        other.start = 1;
        assert!(!same(&flag.to_bytes(), &other.to_bytes()));
        assert!(!same(&plain(1, 1, 0, &[(0, 0)]), &plain(1, 2, 0, &[(0, 0); 2])));
    }

    /// All answer 0, but one table has two states and the other comes back to the first.
    #[test]
    fn a_renumbering_is_one_to_one_both_ways() {
        let [two, one] = [plain(2, 1, 0, &[(1, 0), (0, 0)]), plain(1, 1, 0, &[(0, 0)])];
        assert!(!same(&two, &one));
        assert!(!same(&one, &two));
    }

    #[test]
    fn states_that_can_not_be_reached_do_not_count() {
        let [one, other] = [
            plain(2, 1, 0, &[(0, 3), (0, 1)]),
            plain(3, 1, 2, &[(0, 9), (2, 9), (2, 3)]),
        ];
        assert!(same(&one, &other));
    }
}
