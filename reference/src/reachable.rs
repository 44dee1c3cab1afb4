//! Which states of a table can be reached from its start: a closure by rounds over all entries.

use std::collections::BTreeSet;

use crate::table::{Table, MOST_STATES};

/// The states that some list of operations leads to from the start. The start is marked, and rounds over all entries mark
/// more, until one marks nothing. A next state that is no state of the table leads nowhere.
pub fn reachable(table: &Table) -> BTreeSet<usize> {
    let mut marked = [false; MOST_STATES];
    marked[table.start] = true;
    while mark_next_states(table, &mut marked) {}
    (0..table.states).filter(|&state| marked[state]).collect()
}

/// One round: every entry of a marked state marks its next state. Whether that marks any more.
fn mark_next_states(table: &Table, marked: &mut [bool; MOST_STATES]) -> bool {
    let before = *marked;
    for state in 0..table.states {
        if marked[state] {
            table.next_states(state).for_each(|next| marked[next] = true);
        }
    }
    *marked != before
}

#[cfg(test)]
mod tests {
    use super::*;
    use crate::random::Random;
    use crate::table_cases::random_table;
    use crate::table_file::TableFile;

    fn reached(states: u16, operations: u16, start: u16, entries: &[(u8, u8)]) -> Vec<usize> {
        let file = TableFile::plain(states, operations, start, entries).to_bytes();
        Vec::from_iter(reachable(&Table::read(&file).unwrap()))
    }

    #[test]
    fn the_start_alone_is_reached_where_every_operation_keeps_it() {
        assert_eq!(reached(2, 1, 0, &[(0, 3), (0, 1)]), [0]);
        assert_eq!(reached(3, 1, 2, &[(0, 9), (2, 9), (2, 3)]), [2]);
    }

    #[test]
    fn every_operation_leads_on() {
        let entries = [(0, 0), (2, 0), (1, 0), (1, 0), (2, 0), (3, 0), (3, 0), (0, 0)];
        assert_eq!(reached(4, 2, 0, &entries), [0, 2, 3]);
        assert_eq!(reached(4, 2, 1, &entries), [1]);
    }

    /// In passes from state 0 up, each meets one state more.
    #[test]
    fn a_chain_is_followed_downwards_to_its_end() {
        let entries: Vec<(u8, u8)> = (0..=255u8).map(|state| (state.saturating_sub(1), 0)).collect();
        assert_eq!(reached(256, 1, 255, &entries), Vec::from_iter(0..256));
        assert_eq!(reached(256, 1, 99, &entries), Vec::from_iter(0..100));
    }

    #[test]
    fn a_next_state_out_of_range_leads_nowhere() {
        assert_eq!(reached(3, 1, 0, &[(3, 0), (0, 0), (0, 0)]), [0]);
        assert_eq!(
            reached(3, 2, 0, &[(255, 0), (1, 0), (3, 0), (1, 0), (0, 0), (0, 0)]),
            [0, 1]
        );
    }

    /// Whether operations lead from a state to another on a way with so many states on it.
    fn leads(table: &Table, from: usize, to: usize, most: usize) -> bool {
        from == to
            || most > 1
                && table
                    .next_states(from)
                    .any(|next| leads(table, next, to, most - 1))
    }

    #[test]
    fn in_small_tables_the_same_states_are_found_by_trying_all_lists_of_operations() {
        let mut seen = BTreeSet::new();
        for seed in 0..4_000 {
            let file = random_table(&mut Random::new(seed)).to_bytes();
            let table = Table::check(&file).unwrap();
            if table.states > 5 || table.operations > 3 {
                continue;
            }
            let led = |state: &usize| leads(&table, table.start, *state, table.states);
            let by_trying: BTreeSet<usize> = (0..table.states).filter(led).collect();
            assert_eq!(reachable(&table), by_trying, "seed {seed}");
            seen.insert((by_trying.len(), table.states));
        }
        assert_eq!(seen.len(), 1 + 2 + 3 + 4 + 5);
    }
}
