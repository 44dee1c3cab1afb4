//! Compares the answers of the program `check_table` with ours, byte for byte.

use crate::process::{find_program, run_with_bytes};
use crate::reach_cases::moves_unreachable_alone;
use crate::table::check_report;
use crate::table_cases::{fixed_cases, generated_case, Case};

/// How many tables are generated if nothing else is asked for.
pub const GENERATED_TABLES: u64 = 20_000;
const MOST_SHOWN: usize = 10;

/// The summary line, or the differences.
pub fn compare_tables(path: &str, generated: u64) -> Result<String, String> {
    let program = find_program(path)?;
    let (mut files, mut moving) = (0, 0);
    let mut differences = Vec::new();
    for case in fixed_cases()
        .into_iter()
        .chain((0..generated).map(generated_case))
    {
        let theirs = run_with_bytes(&program, &case.file)?;
        files += 1;
        moving += usize::from(moves_unreachable_alone(&case.file));
        if theirs != check_report(&case.file).as_bytes() {
            differences.push(describe(&case, &theirs));
        }
    }
    let summary = format!(
        "compare-tables: {files} files, {generated} of them generated, {moving} with a reading operation that moves \
         a state out of reach, {} differences",
        differences.len()
    );
    if differences.is_empty() {
        return Ok(summary);
    }
    differences.truncate(MOST_SHOWN);
    differences.push(summary);
    Err(differences.join("\n"))
}

fn describe(case: &Case, theirs: &[u8]) -> String {
    format!(
        "{}, {} bytes: ours {:?}, theirs {:?}",
        case.name,
        case.file.len(),
        check_report(&case.file),
        String::from_utf8_lossy(theirs)
    )
}

#[cfg(test)]
mod tests {
    use super::*;

    /// In these the rule is told from the one by which any state of the table makes an operation changing.
    #[test]
    fn many_generated_tables_have_a_reading_operation_that_moves_a_state_out_of_reach() {
        let files = (0..GENERATED_TABLES).map(|number| generated_case(number).file);
        let moving = files.filter(|file| moves_unreachable_alone(file)).count();
        assert!(moving >= 2_000, "{moving}");
    }
}
