//! `drive same`: whether two object files are one object, by what the library writes for each, and if not, why.

use crate::canonical;
use crate::difference::Difference;
use crate::names::Names;
use crate::number::counted;
use crate::object::Object;

/// An operation that stands more often in a row is counted.
const MOST_IN_A_ROW: usize = 3;

/// An object file, and what it is called.
pub struct Table {
    pub name: String,
    pub file: Vec<u8>,
}

/// The answer in a line, and whether it is yes.
pub fn report(tables: &[Table; 2]) -> Result<(String, bool), String> {
    let [one, other] = tables;
    let written = [
        canonical::file_of(&one.file, &one.name)?,
        canonical::file_of(&other.file, &other.name)?,
    ];
    let objects = [Object::of(&written[0])?, Object::of(&written[1])?];
    let [one, other] = [&one.name, &other.name];
    if written[0] == written[1] {
        let states = counted(objects[0].states(), "state");
        let operations = counted(objects[0].operations(), "operation");
        return Ok((
            format!("same: {one} and {other} are one object, with {states} that can be reached and {operations}\n"),
            true,
        ));
    }
    let difference = Difference::between(&objects).ok_or_else(|| {
        format!("the library writes files for {one} and {other} that differ, but not in what they do")
    })?;
    let reason = reason(&difference, [one, other], &operation_names(tables)?);
    Ok((format!("different: {reason}\n"), false))
}

/// The names that the tables give the operations. If both do and they aren't the same names, there are none: a name could
/// be taken for another operation.
fn operation_names(tables: &[Table; 2]) -> Result<Names, String> {
    let [one, other] = tables;
    let one = Object::of(&one.file)?.operation_names();
    let other = Object::of(&other.file)?.operation_names();
    Ok(match (one.any(), other.any()) {
        (true, true) if one != other => Names::default(),
        (true, _) => one,
        (false, _) => other,
    })
}

/// The difference between two files in words.
fn reason(difference: &Difference, files: [&String; 2], operations: &Names) -> String {
    let [one, other] = files;
    match difference {
        Difference::Operations([ours, theirs]) => {
            format!(
                "{one} has {} and {other} has {theirs}",
                counted(*ours, "operation")
            )
        }
        Difference::Response {
            list,
            operation,
            responses: [ours, theirs],
        } => {
            let (after, operation) = (after(list, operations), operations.of(*operation));
            format!("{after}, operation {operation} responds {ours} in {one} and {theirs} in {other}")
        }
        Difference::Meeting { place, lists, alike } => {
            let [first, second] = [0, 1].map(|list| after(&lists[list], operations));
            let (meets, parts) = (files[*place], files[1 - place]);
            let alike = match alike {
                true => "; their responses never differ",
                false => "",
            };
            format!("{second}, {meets} is in the same state as {first}, and {parts} is not{alike}")
        }
    }
}

/// When a list of operations has been made from the start.
fn after(list: &[usize], operations: &Names) -> String {
    let rows = list.chunk_by(|one, next| one == next);
    let words: Vec<String> = rows.flat_map(|row| in_a_row(row, operations)).collect();
    match words.as_slice() {
        [] => "at the start".into(),
        [word] => format!("after operation {word}"),
        words => format!("after operations {}", words.join(" ")),
    }
}

/// One operation, as often as it stands there.
fn in_a_row(row: &[usize], operations: &Names) -> Vec<String> {
    let name = operations.of(row[0]);
    match row.len() {
        times if times > MOST_IN_A_ROW => vec![format!("{name} ({times} times)")],
        times => vec![name; times],
    }
}
