//! Listings as objdump prints them, from short texts.

use limits::given::Given;
use limits::listing::Listing;
use limits::survey::{survey, Known, Limits};
use limits::turns::{Turn, Turns};

/// A function's listing, in a section of its own. Instructions stand between semicolons, and the address of each is its
/// place in the list; `@` comes before what a relocation names, without `-0x4` if it is the name's own place.
fn code(name: &str, body: &str) -> String {
    let heading = format!("\nDisassembly of section .text.{name}:\n\n0000000000000000 <{name}>:\n");
    let lines = body
        .split(';')
        .enumerate()
        .map(|(at, text)| line(at, text.trim()));
    heading + &lines.collect::<String>()
}

fn line(at: usize, text: &str) -> String {
    let Some((text, place)) = text.split_once(" @") else {
        return format!("   {at:x}:\t{text}\n");
    };
    let addend = if place.contains('+') { "" } else { "-0x4" };
    format!("   {at:x}:\t{text}\n\t\t\t{at:x}: R_X86_64_PLT32\t{place}{addend}\n")
}

/// The relocations of a function's table, which starts at the data section's offset 0.
pub fn table(name: &str, targets: &[u64]) -> String {
    let heading =
        format!("RELOCATION RECORDS FOR [.rodata.{name}]:\nOFFSET           TYPE              VALUE\n");
    let lines = (0..).step_by(4).zip(targets).map(|(offset, target)| {
        let addend = target + offset;
        format!("{offset:016x} R_X86_64_PC32     .text.{name}+0x{addend:016x}\n")
    });
    heading + &lines.collect::<String>()
}

/// The limits of functions, given by name and body.
pub fn limits_by(functions: &[(&str, &str)], tables: &str, given: &Given) -> Result<Known, String> {
    let text: String = functions.iter().map(|(name, body)| code(name, body)).collect();
    survey(&Listing::parse(&text, tables)?, given)
}

/// The limits of functions none of which calls itself.
pub fn limits(functions: &[(&str, &str)], tables: &str, turns: &[Turns]) -> Result<Known, String> {
    limits_by(functions, tables, &Given { turns, cycles: &[] })
}

/// The limits of one function alone.
pub fn limits_of(body: &str, turns: &[Turn]) -> Result<Limits, String> {
    let given = [("f", turns)];
    let mut known = limits(&[("f", body)], "", &given)?;
    known.remove("f").ok_or_else(|| "f is missing".to_string())
}

/// Asserts that something is refused with a message that has some words.
pub fn assert_refused<A: std::fmt::Debug>(answer: Result<A, String>, words: &str) {
    let message = answer.expect_err(words);
    assert!(message.contains(words), "{message}");
}
