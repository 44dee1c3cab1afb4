//! Tables made for the question which console can force a target.

use crate::table::{MOST_OPERATIONS, MOST_STATES};
use crate::table_file::TableFile;

/// The tables by name.
pub fn tables() -> [(&'static str, TableFile); 5] {
    [
        ("the link is driven into state 2", driven()),
        ("the link has one way beside state 2", one_way_out()),
        ("six states in a chain", chain()),
        ("every turn, no", longest_no()),
        ("every turn, yes", longest_yes()),
    ]
}

/// Every operation leads from state 1 to 2. From 0, operation 1 leads to 1.
pub fn driven() -> TableFile {
    of_next_states(&[[0, 1], [2, 2], [2, 2]])
}

/// From state 1, operation 0 leads to 2 and operation 1 back to 0, from where every operation leads to 1.
pub fn one_way_out() -> TableFile {
    of_next_states(&[[1, 1], [2, 0], [2, 2]])
}

/// Each state leads to the next one alone, and the last to itself.
pub fn chain() -> TableFile {
    of_next_states(&[1, 2, 3, 4, 5, 5].map(|next| [next; 2]))
}

/// State 1 is the target. From state 0, whichever operations the jack console makes, the link has the last operation of each
/// of its turns, and no other, to keep out of it; and where it makes another, the jack console has its own last operation, and
/// no other. So who tries operations from 0 up, and stops at the first that decides, makes them all.
pub fn longest_no() -> TableFile {
    longest(2)
}

/// The same, but the last operation of the jack console leads to a state in which the link has none.
pub fn longest_yes() -> TableFile {
    longest(3)
}

/// Two states in which the link makes the second move, 2 and 3; two for the third move, 4 and 5; and two for the last, 6 and
/// 7. In 3, 4 and 7 the target is forced with the moves that are left. The other states, up to 255, lead to 0.
fn longest(by_last_operation: u8) -> TableFile {
    let mut ways = vec![
        (2, by_last_operation),
        (1, 1),
        (4, 5),
        (4, 4),
        (6, 7),
        (6, 6),
        (1, 0),
        (1, 1),
    ];
    ways.resize(MOST_STATES, (0, 0));
    let rows = ways.into_iter().map(|(others, last)| {
        let mut row = [others; MOST_OPERATIONS];
        row[MOST_OPERATIONS - 1] = last;
        row
    });
    of_next_states(&Vec::from_iter(rows))
}

/// The table from start 0 that leads so, by state and then by operation; every response is 0.
fn of_next_states<const OPERATIONS: usize>(rows: &[[u8; OPERATIONS]]) -> TableFile {
    let entries: Vec<(u8, u8)> = rows.as_flattened().iter().map(|&next| (next, 0)).collect();
    TableFile::plain(rows.len() as u16, OPERATIONS as u16, 0, &entries)
}
