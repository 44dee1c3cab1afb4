//! Refusals in words.

use drive_object::Refusal;

/// The number of the bench's own refusal: of a line.
pub const LINE_NUMBER: u8 = 13;

/// All that calls are refused with.
const CALLS: [Refusal; 18] = [
    Refusal::File,
    Refusal::Dimensions,
    Refusal::Length,
    Refusal::NextState,
    Refusal::Row,
    Refusal::Cells,
    Refusal::Task,
    Refusal::Operation,
    Refusal::Pending,
    Refusal::Idle,
    Refusal::Record,
    Refusal::Cell,
    Refusal::Rings,
    Refusal::Chainage,
    Refusal::Room,
    Refusal::Unacknowledged,
    Refusal::Window,
    Refusal::Question,
];

/// The meaning of a refusal's number.
pub fn meaning_of(number: u8) -> String {
    match CALLS.iter().find(|refusal| refusal.number() == number) {
        Some(refusal) => refusal.to_string(),
        None => "a number that no call answers".into(),
    }
}

/// Number and meaning of a refused call.
pub fn in_words(refusal: Refusal) -> String {
    format!("refused with {}: {refusal}", refusal.number())
}

/// The same for a line of the bench.
pub fn line_in_words() -> String {
    format!("refused with {LINE_NUMBER}: the line has no known form, or stands before an accepted n line")
}
