//! The stories of runs, compared with the second program line by line.

use std::collections::BTreeSet;
use std::sync::OnceLock;

use crate::mid_work::mid_work_scripts;
use crate::program::drive_on;
use reference::script_cases::{fixed_scripts, random_script, Script};
use reference::trace::trace;
use reference::trace_event::refused;

const RANDOM_SCRIPTS: u64 = 300;

/// All phases but the idle one.
const PHASES: usize = 23;

/// A table and lines, and what `drive run` tells of them, or why it fails.
pub struct Story {
    pub name: String,
    pub table: Vec<u8>,
    input: Vec<u8>,
    pub told: Result<String, String>,
}

impl Story {
    fn of(script: Script) -> Story {
        let table = script.table.unwrap_or_default();
        let ran = drive_on("run", &table, &script.input);
        Story {
            name: script.name,
            told: match ran.status {
                0 => Ok(ran.text()),
                _ => Err(ran.failure()),
            },
            table,
            input: script.input,
        }
    }
}

/// The stories of fixed and generated scripts; the program runs once on each.
pub fn stories() -> &'static [Story] {
    static STORIES: OnceLock<Vec<Story>> = OnceLock::new();
    STORIES.get_or_init(|| {
        let fixed = fixed_scripts().into_iter().chain(mid_work_scripts());
        let scripts = fixed.chain((0..RANDOM_SCRIPTS).map(random_script));
        scripts.map(Story::of).collect()
    })
}

/// The phase in a line of a step.
fn phase(line: &str) -> Option<&str> {
    let (_, after) = line.strip_prefix("  task ")?.split_once("  step ")?;
    after.trim_start().split_once("  ")?.1.split_whitespace().next()
}

#[test]
fn run_tells_what_the_second_program_tells() {
    let mut phases = BTreeSet::new();
    for story in stories() {
        match (trace(&story.table, &story.input), &story.told) {
            (Ok(expected), Ok(told)) => {
                assert!(
                    *told == expected,
                    "{}:\n{told}\nbut expected\n{expected}",
                    story.name
                );
                phases.extend(told.lines().filter_map(phase));
            }
            (expected, told) => {
                let expected =
                    expected.map_err(|refusal| format!("drive: the table is {}\n", refused(refusal)));
                assert_eq!(*told, expected, "{}", story.name);
            }
        }
    }
    assert_eq!(phases.len(), PHASES, "{phases:?}");
}
