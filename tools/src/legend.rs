//! What the marks and colours of a timeline mean.

use crate::phase::{Access, Purpose};
use crate::svg::{Anchor, Drawing};

pub const REST: &str = "#d9f2d9";
pub const CHANGING: &str = "#fbe3c2";
pub const CHANGING_MOVED: &str = "#f2b872";
pub const READING: &str = "#d8e4f2";
pub const STOPPED: &str = "#f7f0e6";
pub const WAITING: &str = "#ffd9a8";
pub const RESPONSE: &str = "#cdb9e3";
pub const RESPONSE_MOVED: &str = "#b093d6";
pub const FREE: &str = "#eeeeee";

/// Marks and colours in a line.
const COLUMNS: usize = 5;
const COLUMN: f64 = 182.0;
const LINE: f64 = 17.0;

/// The marks of the legend.
const MARKS: [(Purpose, bool); 9] = [
    (Purpose::Read, false),
    (Purpose::Announce, false),
    (Purpose::Retract, false),
    (Purpose::Link, false),
    (Purpose::Release, false),
    (Purpose::Apply, false),
    (Purpose::HandOver, false),
    (Purpose::Clear, false),
    (Purpose::Link, true),
];

/// The colours of the legend.
const COLOURS: [(&str, &str); 8] = [
    (REST, "point of rest"),
    (READING, "reading operation"),
    (CHANGING, "changing operation"),
    (CHANGING_MOVED, "changing, state moved"),
    (STOPPED, "pending, no further call"),
    (WAITING, "operation announced"),
    (RESPONSE, "response, state not moved"),
    (RESPONSE_MOVED, "response, state moved"),
];

/// The place of the first colour: it begins a line.
const FIRST_COLOUR: usize = MARKS.len().next_multiple_of(COLUMNS);

/// The lines of marks and colours, and the legend's height, in which a line of labels comes after them.
const LINES: usize = (FIRST_COLOUR + COLOURS.len()).div_ceil(COLUMNS);
pub const HEIGHT: f64 = LINE * LINES as f64 + 41.0;

/// What the labels say.
const LABELS: &str = "Over a bar: operation \u{2192} response. Over the head: its state. Over an announcement: its operation or its \
                      response. At the top: the number of the call.";

/// Colour and name of what a step does.
fn look(purpose: Purpose, failed: bool) -> (&'static str, &'static str) {
    match purpose {
        _ if failed => ("#d62728", "a swap that fails"),
        Purpose::Read => ("#888888", "reads"),
        Purpose::Announce => ("#ff7f0e", "announces its operation"),
        Purpose::Link => ("#1f77b4", "links a cell"),
        Purpose::Apply => ("#2ca02c", "applies an operation"),
        Purpose::HandOver => ("#9467bd", "hands a response over"),
        Purpose::Clear => ("#8c564b", "clears the head"),
        Purpose::Release => ("#17becf", "releases a link"),
        Purpose::Retract => ("#222222", "empties its announcement"),
    }
}

/// The shape says the access: a ring reads, a square writes, a disc is a swap that is made, a cross one that fails.
pub fn draw_mark(drawing: &mut Drawing, place: (f64, f64), purpose: Purpose, failed: bool, title: &str) {
    let (colour, _) = look(purpose, failed);
    match purpose.access() {
        _ if failed => drawing.cross(place, 3.2, colour, title),
        Access::Read => drawing.ring(place, 2.8, colour, title),
        Access::Write => drawing.square(place, 3.2, colour, title),
        Access::Swap => drawing.disc(place, 3.6, colour, title),
    }
}

/// What marks, colours and labels mean, from the corner given.
pub fn draw_legend(drawing: &mut Drawing, (left, top): (f64, f64)) {
    let place = |at: usize| {
        let (column, line) = ((at % COLUMNS) as f64, (at / COLUMNS) as f64);
        (left + COLUMN * column, top + 10.0 + LINE * line)
    };
    for (at, (purpose, failed)) in MARKS.into_iter().enumerate() {
        let (_, name) = look(purpose, failed);
        draw_mark(drawing, place(at), purpose, failed, name);
        draw_name(drawing, place(at), name);
    }
    for (at, (fill, name)) in (FIRST_COLOUR..).zip(COLOURS) {
        let (x, y) = place(at);
        drawing.rectangle((x - 5.0, y - 5.0), (11.0, 11.0), fill);
        draw_name(drawing, (x, y), name);
    }
    let below = top + 19.0 + LINE * LINES as f64;
    drawing.text((left - 5.0, below), 11.0, Anchor::Start, LABELS);
}

/// The name of the mark or colour at a place.
fn draw_name(drawing: &mut Drawing, (x, y): (f64, f64), name: &str) {
    drawing.text((x + 10.0, y + 4.0), 11.0, Anchor::Start, name);
}
