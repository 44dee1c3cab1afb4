//! What an operation that ends answers beside its count, in a step's answer and in the cells.

use std::fmt;

#[derive(Clone, Copy, PartialEq, Eq, Debug)]
pub struct Reply {
    pub response: u64,
    /// Whether the state moved.
    pub moved: bool,
}

impl fmt::Display for Reply {
    fn fmt(&self, formatter: &mut fmt::Formatter<'_>) -> fmt::Result {
        let moved = if self.moved { "moved" } else { "not moved" };
        write!(formatter, "response {}, {moved}", self.response)
    }
}
