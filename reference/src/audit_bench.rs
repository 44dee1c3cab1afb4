//! Holds the prints of a bench, given by its path, to the four facts of mid-work, in generated scripts.

use std::fs;
use std::path::Path;

use crate::audit::{audit, Seen};
use crate::audit_cases::audit_script;
use crate::compare_bench::{make_folder, remove};
use crate::printed::part;
use crate::process::{find_program, run_in_folder};
use crate::script_cases::Script;

pub const AUDITED_SCRIPTS: u64 = 500;

/// The summary line, or the first script that breaks a fact, with its folder, which is kept.
pub fn audit_bench(path: &str, scripts: u64) -> Result<String, String> {
    let program = find_program(path)?;
    let root = std::env::temp_dir().join(format!("reference-audit-{}", std::process::id()));
    let mut seen = Seen::default();
    for script in (0..scripts).map(audit_script) {
        let folder = root.join(script.name.replace(' ', "-"));
        let found = make_folder(&folder, &script)
            .and_then(|()| audit_in_folder(&program, &folder, &script))
            .map_err(|message| format!("{}: {message}\nsee {}", script.name, folder.display()))?;
        seen.add(found);
        remove(&folder)?;
    }
    remove(&root)?;
    Ok(format!(
        "audit-bench: {scripts} scripts on {path}, {}",
        summary(seen)
    ))
}

/// Runs the program; what it prints is kept beside the input.
fn audit_in_folder(program: &Path, folder: &Path, script: &Script) -> Result<Seen, String> {
    let output = run_in_folder(program, folder)?;
    fs::write(folder.join("stdout"), &output).map_err(|error| error.to_string())?;
    let output = String::from_utf8(output).map_err(|error| error.to_string())?;
    let table = script.table.as_deref().unwrap_or(&[]);
    audit(table, &part(&script.input, &output)?)
}

fn summary(seen: Seen) -> String {
    let Seen {
        prints,
        with_holder,
        quiet_beside_busy,
        empty_with_mark,
        with_reader,
    } = seen;
    format!(
        "{prints} prints: {with_holder} with a holder, {quiet_beside_busy} with a quiet task beside a busy one, \
         {empty_with_mark} with an empty announcement that has another's mark, {with_reader} with a reading operation \
         pending; facts 1 to 4 hold on all"
    )
}
