//! The causes for which a call is not served, with the numbers of docs/FORMATS.md.

#[derive(Clone, Copy, Debug, PartialEq, Eq)]
pub enum Refusal {
    /// File too short or too long, or mark wrong.
    File,
    /// Number of states or operations out of range, or start state not below the number of states.
    Dimensions,
    /// Offset too large, or length not the one that the trailer asks for.
    Length,
    /// Next state not below the number of states.
    NextState,
    /// Row of 0 or over 8 records.
    Row,
    /// Cells not one more than records.
    Cells,
    /// Task number not below n.
    Task,
    /// Operation number not below m.
    Operation,
    /// Begin with an operation pending.
    Pending,
    /// Step with none pending.
    Idle,
    /// Record out of form.
    Record,
    /// Touched cell out of form.
    Cell,
    /// Bench line of no known form, or one that comes before the run is started.
    Line,
    /// List of 0 or over 255 rings, or a ring's length or kind out of range.
    Rings,
    /// Chainage that no ring owns.
    Chainage,
    /// Lent room shorter than what is written there.
    Room,
    /// The window's command is a begin, and done is not acknowledged.
    Unacknowledged,
    /// The window's command is not 0 to 3, or the windows are not 8 bytes for each task.
    Window,
    /// Moves not 1 to 4, state not below s, or targets not a byte, 0 or 1, for each state.
    Question,
}

impl Refusal {
    pub fn number(self) -> u8 {
        match self {
            Refusal::File => 1,
            Refusal::Dimensions => 2,
            Refusal::Length => 3,
            Refusal::NextState => 4,
            Refusal::Row => 5,
            Refusal::Cells => 6,
            Refusal::Task => 7,
            Refusal::Operation => 8,
            Refusal::Pending => 9,
            Refusal::Idle => 10,
            Refusal::Record => 11,
            Refusal::Cell => 12,
            Refusal::Line => 13,
            Refusal::Rings => 14,
            Refusal::Chainage => 15,
            Refusal::Room => 16,
            Refusal::Unacknowledged => 17,
            Refusal::Window => 18,
            Refusal::Question => 19,
        }
    }
}
