//! `drive run`: the bench's lines, each with what happened in words.

use drive_object::Shape;

use crate::conclusion::conclusions;
use crate::lines::LONGEST;
use crate::phase::Access;
use crate::refused;
use crate::session::{serve, Event, Step};
use crate::text::escape_ascii;
use crate::word::{cell_name, marks, meaning};

/// The story of an input, or why the table isn't served.
pub fn story(file: &[u8], input: &[u8]) -> Result<String, String> {
    let session = serve(file, input)?;
    let mut lines = Vec::new();
    for served in &session.served {
        lines.push(format!("> {}", shown(served.line)));
        let told = served.events.iter().flat_map(|event| told(event, session.shape));
        lines.extend(told.map(|line| format!("  {line}")));
        lines.extend(served.printed.iter().map(|line| format!("< {line}")));
    }
    lines.push(String::new());
    Ok(lines.join("\n"))
}

/// A line of input; a long one as far as a line may go.
pub fn shown(line: &[u8]) -> String {
    match line.get(..LONGEST) {
        Some(first) if line.len() > LONGEST => format!("{}...", escape_ascii(first)),
        _ => escape_ascii(line),
    }
}

/// The lines of an event.
pub fn told(event: &Event, shape: Shape) -> Vec<String> {
    let line = match event {
        Event::Printed(cells) => return cell_lines(cells),
        Event::Started { tasks } => {
            let Shape {
                states,
                operations,
                start,
            } = shape;
            format!("started: tasks {tasks}, states {states}, operations {operations}, state {start}")
        }
        Event::Begun {
            task,
            operation,
            changing,
        } => {
            let kind = if *changing { "changing" } else { "reading" };
            format!("task {task} begins operation {operation}, {kind}")
        }
        Event::Stepped(step) => step_line(step),
        Event::Ended {
            task,
            operation,
            reply,
            steps,
        } => {
            format!("task {task} ends operation {operation}: {reply}, own steps {steps}")
        }
        Event::Rest { state } => format!("at rest in state {state}"),
        Event::Refused(refusal) => refused::in_words(*refusal),
        Event::Unknown => refused::line_in_words(),
    };
    vec![line]
}

/// Task, own step, phase, access, cell, words and meaning of a step.
pub fn step_line(step: &Step) -> String {
    let (task, count, phase) = (step.task, step.count, &step.planned.phase);
    let access = match step.planned.purpose.access() {
        Access::Read => "read",
        Access::Write => "write",
        Access::Swap => "swap",
    };
    let (cell, words) = (cell_name(step.planned.cell), words(step));
    let meaning = meaning(step.planned.cell, step.after);
    format!("task {task}  step {count:>3}  {phase:<16}  {access:<5}  {cell:<14}  {words:<38}  {meaning}")
}

fn words(step: &Step) -> String {
    let (before, after, compared) = (step.before, step.after, step.planned.compared);
    match step.planned.purpose.access() {
        Access::Read => format!("{before:016x}"),
        Access::Swap if step.failed() => format!("{before:016x}, not {compared:016x}"),
        Access::Write | Access::Swap => format!("{before:016x} -> {after:016x}"),
    }
}

/// The cells with their meaning, how many marks are set in all of them together, and what follows from them.
fn cell_lines(cells: &[u64]) -> Vec<String> {
    let line = |(cell, word): (usize, &u64)| {
        format!("{:<14}  {word:016x}  {}", cell_name(cell), meaning(cell, *word))
    };
    let total: u32 = cells.iter().map(|word| marks(*word)).sum();
    cells
        .iter()
        .enumerate()
        .map(line)
        .chain([format!("marks {total}")])
        .chain(conclusions(cells))
        .collect()
}
