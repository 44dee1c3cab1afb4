//! `drive check`: the shape of an object file, and its operations.

use drive_object::{begin, start, Task};

use crate::object::Object;
use crate::phase::begun_changing;
use crate::refused;

/// Shape and operations, or the refusal in words.
pub fn report(file: &[u8]) -> Result<String, String> {
    let object = Object::of(file)?;
    let (states, operations) = (object.state_names(), object.operation_names());
    let mut lines = vec![
        format!("states       {}", object.states()),
        format!("operations   {}", object.operations()),
        format!(
            "start state  {}",
            states.numbered(usize::from(object.shape.start), 0)
        ),
        format!("free text    {} bytes", object.text().len()),
    ];
    lines.extend(
        states
            .misfit
            .iter()
            .chain(&operations.misfit)
            .map(|misfit| format!("note         {misfit}")),
    );
    lines.push(String::new());
    let most = (object.operations() - 1).to_string().len();
    let names = if operations.any() {
        most + 1 + operations.width(object.operations())
    } else {
        most
    };
    for operation in 0..object.operations() {
        let kind = kind(file, operation)?;
        lines.push(format!(
            "operation {:<names$}  {kind}",
            operations.numbered(operation, most)
        ));
    }
    lines.push(String::new());
    Ok(lines.join("\n"))
}

/// Changing or reading, by the phase that the library's begin leaves on a started row.
fn kind(file: &[u8], operation: usize) -> Result<&'static str, String> {
    let (mut cells, mut row) = ([0; 2], [Task::default()]);
    let begun = start(file, &mut cells, &mut row).and_then(|()| begin(file, &mut row, 0, operation));
    begun.map_err(refused::in_words)?;
    match begun_changing(&row[0]) {
        Some(true) => Ok("changing"),
        Some(false) => Ok("reading"),
        None => Err(format!("begin left phase {}", row[0].phase)),
    }
}
