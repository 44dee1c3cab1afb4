//! The tables for docs/LINKING.md, and their place in it.

use std::collections::BTreeSet;

use crate::cycles::Cycle;
use crate::given::Given;
use crate::survey::{Known, Limits};
use crate::turns::Turn;

/// The exported calls, in the page's order.
pub const CALLS: [&str; 13] = [
    "drive_check",
    "drive_canonical",
    "drive_force",
    "drive_start",
    "drive_begin",
    "drive_step",
    "drive_begin_record",
    "drive_step_record",
    "drive_window",
    "drive_window_line",
    "drive_ceiling",
    "desk_owner",
    "desk_table",
];

/// How the names of exported calls begin.
const EXPORTED: [&str; 2] = ["drive_", "desk_"];

const OPENING: &str = "<!-- limits -->\n";
const CLOSING: &str = "<!-- end of limits -->\n";

/// The three tables: the calls with their limits, the turns that are given, and the depths that are.
pub fn tables(known: &Known, given: &Given) -> Result<String, String> {
    let unknown = known
        .keys()
        .find(|name| is_exported(name) && !CALLS.contains(&name.as_str()));
    if let Some(name) = unknown {
        return Err(format!("{name} is exported, and not among the calls"));
    }
    let mut text = String::from(
        "| call | bytes of stack | of them below the stack pointer | instructions | vector registers |\n\
         |---|---|---|---|---|\n",
    );
    for call in CALLS {
        let limits = known
            .get(call)
            .ok_or_else(|| format!("{call} is not in the archive"))?;
        text.push_str(&row(call, limits));
    }
    text.push_str("\n| function | turns of its loops at most |\n|---|---|\n");
    for (function, turns) in given.turns {
        text.push_str(&format!("| `{function}` | {} |\n", product(turns)));
    }
    text.push_str(
        "\n| functions that call themselves or each other | left at most at the first call | less at each further call \
         | with none left |\n|---|---|---|---|\n",
    );
    let cycles = given.cycles.iter().map(row_of_cycle);
    Ok(text + &cycles.collect::<String>())
}

fn row_of_cycle(cycle: &Cycle) -> String {
    let members: Vec<String> = cycle.members.iter().map(|name| format!("`{name}`")).collect();
    let (most, over, fall) = (cycle.most, cycle.over, cycle.fall);
    let members = members.join(", ");
    format!("| {members} | {most} {over} | {fall} | no loop, no further call |\n")
}

fn is_exported(name: &str) -> bool {
    EXPORTED.iter().any(|beginning| name.starts_with(beginning))
}

/// Loops in the order of their headers; one that stands in the last one multiplies.
fn product(turns: &[Turn]) -> String {
    let mut text = String::new();
    for turn in turns {
        let between = match turn.depth {
            _ if text.is_empty() => "",
            1 => "; ",
            _ => " × ",
        };
        text.push_str(&format!("{between}{} {}", turn.most, turn.over));
    }
    text
}

fn row(call: &str, limits: &Limits) -> String {
    let outside: String = limits.outside.iter().map(|name| format!(" + `{name}`")).collect();
    let (stack, below) = (grouped(limits.stack), grouped(limits.below));
    let instructions = grouped(limits.instructions);
    let registers = named(&limits.vector_registers);
    format!("| `{call}` | {stack}{outside} | {below} | {instructions}{outside} | {registers} |\n")
}

fn named(registers: &BTreeSet<String>) -> String {
    let registers: Vec<String> = registers.iter().map(|name| format!("`{name}`")).collect();
    match registers.is_empty() {
        true => "none".to_string(),
        false => registers.join(", "),
    }
}

/// Digits in groups of three.
pub fn grouped(number: u64) -> String {
    match number {
        0..1000 => number.to_string(),
        _ => format!("{},{:03}", grouped(number / 1000), number % 1000),
    }
}

/// What a page has between the two marks.
pub fn marked(page: &str) -> Option<&str> {
    let (_, rest) = page.split_once(OPENING)?;
    let (tables, _) = rest.split_once(CLOSING)?;
    Some(tables.trim())
}
