//! `drive show`: an object file as text, which `drive table` reads back to the same bytes.

use std::fmt::Write;

use crate::object::Object;
use crate::text::escape;

/// The text of an object file, or the refusal in words.
pub fn text_of(file: &[u8]) -> Result<String, String> {
    let object = Object::of(file)?;
    let (states, operations) = (object.state_names(), object.operation_names());
    let mut out = free_text(object.text());
    let start = states.of(usize::from(object.shape.start));
    let (count, kinds) = (object.states(), object.operations());
    write!(
        out,
        "states {count}\noperations {kinds}\nstart {start}\n\n# state operation -> next-state response\n"
    )
    .expect("a string takes every text");
    let (wide, narrow) = (states.width(count), operations.width(kinds));
    for state in 0..count {
        for operation in 0..kinds {
            let entry = object.entry(state, operation);
            let (from, by, to) = (
                states.of(state),
                operations.of(operation),
                states.of(usize::from(entry.next)),
            );
            let response = entry.response;
            writeln!(out, "{from:<wide$}  {by:<narrow$}  ->  {to:<wide$}  {response}")
                .expect("a string takes every text");
        }
    }
    Ok(out)
}

/// A line for each line of the text; one without byte 10 at its end has a backslash there.
fn free_text(text: &[u8]) -> String {
    let mut out = String::new();
    for line in text.split_inclusive(|byte| *byte == b'\n') {
        let (line, open) = match line.strip_suffix(b"\n") {
            Some(line) => (line, ""),
            None => (line, "\\"),
        };
        let shown = escape(line);
        let shown = match shown.strip_suffix(' ') {
            Some(before) => format!("{before}\\x20"),
            None => shown,
        };
        let gap = if shown.is_empty() { "" } else { " " };
        writeln!(out, "|{gap}{shown}{open}").expect("a string takes every text");
    }
    out
}
