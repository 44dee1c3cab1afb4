//! What the word of a cell says.

use std::fmt::Write;

use crate::reply::Reply;

/// A field of a cell: `width` bits from bit `low` up.
fn field(word: u64, low: u32, width: u32) -> u64 {
    word >> low & ((1 << width) - 1)
}

/// The name of a cell: cell 0 is the head, cell i + 1 the announcement of task i.
pub fn cell_name(cell: usize) -> String {
    match cell {
        0 => "head".into(),
        _ => format!("announcement {}", cell - 1),
    }
}

/// The state in a head.
pub fn state(head: u64) -> u64 {
    field(head, 8, 8)
}

/// What an announcement holds.
#[derive(Clone, Copy, PartialEq, Eq, Debug)]
pub enum Content {
    Empty,
    Operation(u64),
    Response(Reply),
}

/// The kind of an announcement: 0 empty, 1 an operation, 2 a response.
pub fn kind(announcement: u64) -> u64 {
    field(announcement, 8, 2)
}

pub fn content(announcement: u64) -> Content {
    let payload = field(announcement, 16, 8);
    match kind(announcement) {
        1 => Content::Operation(payload),
        2 => Content::Response(Reply {
            response: payload,
            moved: field(announcement, 24, 1) == 1,
        }),
        _ => Content::Empty,
    }
}

/// The holder of a head with what its operation answers.
pub fn held(head: u64) -> Option<(u64, Reply)> {
    let holder = field(head, 24, 4).checked_sub(1)?;
    let reply = Reply {
        response: field(head, 16, 8),
        moved: field(head, 28, 1) == 1,
    };
    Some((holder, reply))
}

/// The marks of a cell in a library's run, where bits that have no name are 0.
pub fn marks(word: u64) -> u32 {
    field(word, 0, 8).count_ones()
}

/// The tasks whose marks stand in a cell.
pub fn marked_by(word: u64) -> impl Iterator<Item = u64> {
    (0..8).filter(move |task| word >> task & 1 == 1)
}

/// The word of a cell in words.
pub fn meaning(cell: usize, word: u64) -> String {
    let mut text = match (cell, content(word)) {
        (0, _) => format!("state {}", state(word)),
        (_, Content::Empty) => "empty".into(),
        (_, Content::Operation(operation)) => format!("operation {operation}"),
        (_, Content::Response(reply)) => reply.to_string(),
    };
    if let (0, Some((holder, reply))) = (cell, held(word)) {
        write!(text, ", {reply}, for task {holder}").expect("a string takes every text");
    }
    if marks(word) > 0 {
        text.push_str(", marked by");
        marked_by(word).for_each(|task| write!(text, " {task}").expect("a string takes every text"));
    }
    text
}
