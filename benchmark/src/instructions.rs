//! Instructions by callgrind: the same load is run in two lengths, and the difference is shared out.

use std::process::Command;

use crate::load::Load;

/// Instructions, and how many steps, begins or operations they were for.
struct Count {
    instructions: u64,
    made: u64,
}

/// Instructions for one step, begin or operation; what a run spends apart from them falls out.
pub fn of_one(load: &Load) -> Result<f64, String> {
    let short = count(load)?;
    let long = count(&Load {
        count: 2 * load.count,
        ..*load
    })?;
    let instructions = long.instructions - short.instructions;
    Ok(instructions as f64 / (long.made - short.made) as f64)
}

/// Runs this program again under callgrind.
fn count(load: &Load) -> Result<Count, String> {
    let program = std::env::current_exe().map_err(|error| error.to_string())?;
    let output = Command::new("valgrind")
        .args(["--tool=callgrind", "--callgrind-out-file=/dev/null"])
        .arg(program)
        .arg("run")
        .args(load.words())
        .output()
        .map_err(|error| format!("valgrind: {error}"))?;
    let printed = String::from_utf8_lossy(&output.stdout);
    let noted = String::from_utf8_lossy(&output.stderr);
    let collected = noted.lines().find_map(|line| line.split("Collected : ").nth(1));
    let instructions = collected.and_then(|number| number.trim().parse().ok());
    match (instructions, printed.trim().parse()) {
        (Some(instructions), Ok(made)) => Ok(Count { instructions, made }),
        _ => Err(format!("callgrind printed:\n{noted}")),
    }
}
