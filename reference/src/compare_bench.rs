//! Compares the proved bench with ours: both run on the same folder, every byte that they print is compared.

use std::fs;
use std::path::Path;

use crate::bench::output_in_folder;
use crate::process::{find_program, run_in_folder, run_in_pieces};
use crate::script_cases::{fixed_scripts, random_script, Script};

pub const RANDOM_SCRIPTS: u64 = 2_200;
const MOST_SHOWN: usize = 10;

/// The summary line, or the differences. The folders of those are kept.
pub fn compare_bench(path: &str, random_scripts: u64) -> Result<String, String> {
    let program = find_program(path)?;
    let root = std::env::temp_dir().join(format!("reference-bench-{}", std::process::id()));
    let mut scripts = 0;
    let mut lines = 0;
    let mut differences = Vec::new();
    for script in fixed_scripts()
        .into_iter()
        .chain((0..random_scripts).map(random_script))
    {
        let folder = root.join(scripts.to_string());
        scripts += 1;
        lines += script.input.split(|&byte| byte == b'\n').count();
        let equal = make_folder(&folder, &script)
            .and_then(|()| is_equal(&program, &folder, script.piece))
            .map_err(|message| format!("{}: {message}", script.name))?;
        match equal {
            true => remove(&folder)?,
            false => differences.push(format!("{}: see {}", script.name, folder.display())),
        }
    }
    let count = differences.len();
    let summary = format!("compare-bench: {scripts} scripts, {lines} lines, {count} differences");
    if differences.is_empty() {
        return remove(&root).map(|()| summary);
    }
    differences.truncate(MOST_SHOWN);
    differences.push(summary);
    Err(differences.join("\n"))
}

/// Makes the script's folder.
pub fn make_folder(folder: &Path, script: &Script) -> Result<(), String> {
    let made = fs::create_dir_all(folder).and_then(|()| {
        if let Some(table) = &script.table {
            fs::write(folder.join("table.bin"), table)?;
        }
        fs::write(folder.join("stdin"), &script.input)
    });
    made.map_err(|error| error.to_string())
}

/// Whether both print the same; if not, both outputs are kept beside the input.
fn is_equal(program: &Path, folder: &Path, piece: Option<usize>) -> Result<bool, String> {
    let ours = output_in_folder(folder)?;
    let theirs = match piece {
        Some(length) => run_in_pieces(program, folder, length)?,
        None => run_in_folder(program, folder)?,
    };
    let equal = theirs == ours.as_bytes();
    if !equal {
        fs::write(folder.join("ours"), ours).map_err(|error| error.to_string())?;
        fs::write(folder.join("theirs"), theirs).map_err(|error| error.to_string())?;
    }
    Ok(equal)
}

pub fn remove(folder: &Path) -> Result<(), String> {
    fs::remove_dir_all(folder).map_err(|error| error.to_string())
}
