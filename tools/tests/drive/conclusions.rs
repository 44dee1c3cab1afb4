//! What `drive run` says to follow from a print: it is true by what was told before, and all sorts of prints occur.

use std::collections::BTreeMap;

use crate::mid_work::EXAMPLE;
use crate::prints::{prints, Doing, Print, Stage};
use crate::program::drive;
use crate::runs::stories;

/// All prints, each with the name of its story.
fn all_prints() -> impl Iterator<Item = (&'static str, Print)> {
    let told = stories().iter().filter(|story| story.told.is_ok());
    told.flat_map(|story| {
        let prints = prints(&story.table, story.told.as_deref().unwrap_or_default());
        prints.into_iter().map(|print| (story.name.as_str(), print))
    })
}

/// Named are the tasks with a changing operation that has made a step, and all others are said to be without a trace; the state
/// is the one to which the applied operations lead.
#[test]
fn what_follows_is_true_by_what_was_told_before() {
    for (name, print) in all_prints() {
        let announced = |task: &usize| matches!(print.doing[*task], Doing::Changing { steps: 1.., .. });
        let (busy, others): (Vec<usize>, Vec<usize>) = (0..print.doing.len()).partition(announced);
        let named: Vec<usize> = print.pending.iter().map(|(task, _)| *task).collect();
        assert_eq!((named, &print.others), (busy, &others), "{name}: {print:?}");
        assert_eq!(print.states, [print.reached], "{name}: {print:?}");
    }
}

/// Answered is said of exactly the pending operations that have been applied and got their response, announced of all others;
/// the head is said to be held by none but operations that have been applied.
#[test]
fn answered_are_the_operations_with_their_response() {
    for (name, print) in all_prints() {
        for (task, traces) in &print.pending {
            let Doing::Changing { stage, .. } = print.doing[*task] else {
                panic!("{name}: task {task} changes nothing: {print:?}");
            };
            let expected = match stage {
                Stage::Begun | Stage::Made => "announced",
                Stage::Answered => "answered",
            };
            let mut words = traces.split(", ");
            assert_eq!(words.next(), Some(expected), "{name}: task {task}: {print:?}");
            let held = words.any(|word| word == "holds the head");
            assert!(!held || stage != Stage::Begun, "{name}: task {task}: {print:?}");
        }
    }
}

/// What a task's announcement holds and what is said of the task, and in how many prints that occurs at least.
const OF_TASKS: [(&str, usize); 22] = [
    ("operation: announced", 5_000),
    ("operation: announced, holds the head", 500),
    (
        "operation: announced, holds the head, its mark stands in the head",
        200,
    ),
    (
        "operation: announced, holds the head, its mark stands in the head and its own",
        100,
    ),
    (
        "operation: announced, holds the head, its mark stands in another's",
        1,
    ),
    ("operation: announced, its mark stands in the head", 1_000),
    (
        "operation: announced, its mark stands in the head and another's",
        100,
    ),
    ("operation: announced, its mark stands in another's", 20),
    ("response: answered", 100),
    ("response: answered, holds the head", 20),
    (
        "response: answered, holds the head, its mark stands in the head",
        50,
    ),
    (
        "response: answered, holds the head, its mark stands in the head and its own",
        1,
    ),
    (
        "response: answered, holds the head, its mark stands in another's",
        1,
    ),
    ("response: answered, its mark stands in the head", 20),
    ("response: answered, its mark stands in its own", 1),
    ("response: answered, its mark stands in another's", 1),
    ("empty: idle, no trace", 5_000),
    ("empty: reading, no trace", 1_000),
    ("empty: begun, no trace", 1_000),
    ("empty, marked: idle, no trace", 1),
    ("empty, marked: reading, no trace", 1),
    ("empty, marked: begun, no trace", 1),
];

/// Of how many tasks there is no trace, and in how many prints at least.
const OF_PRINTS: [(&str, usize); 3] = [("none", 100), ("one", 1_000), ("several", 1_000)];

#[test]
fn all_sorts_of_prints_occur() {
    let of_tasks = all_prints().flat_map(|(_, print)| of_tasks(&print));
    all_occur(of_tasks, &OF_TASKS);
    let of_prints = all_prints().map(|(_, print)| match print.others.len() {
        0 => "none".to_string(),
        1 => "one".to_string(),
        _ => "several".to_string(),
    });
    all_occur(of_prints, &OF_PRINTS);
}

fn all_occur(found: impl Iterator<Item = String>, expected: &[(&str, usize)]) {
    let mut counts: BTreeMap<String, usize> = BTreeMap::new();
    found.for_each(|found| *counts.entry(found).or_default() += 1);
    for (name, least) in expected {
        assert!(counts.get(*name) >= Some(least), "{name}: {counts:#?}");
    }
}

/// What each task's announcement holds, and what is said of the task.
fn of_tasks(print: &Print) -> Vec<String> {
    let pending = print.pending.iter().map(|(task, traces)| {
        let (content, _) = announcement(print, *task);
        format!("{content}: {}", by_owner(*task, traces))
    });
    let others = print.others.iter().map(|task| {
        let (content, marked) = announcement(print, *task);
        let doing = match print.doing[*task] {
            Doing::Nothing => "idle",
            Doing::Reading => "reading",
            Doing::Changing { .. } => "begun",
        };
        format!("{content}{marked}: {doing}, no trace")
    });
    pending.chain(others).collect()
}

/// What the print says that a task's announcement holds, and whether it is marked.
fn announcement(print: &Print, task: usize) -> (&str, &'static str) {
    let (_, meaning) = print.cells[task + 1].rsplit_once("  ").expect("columns");
    let marked = if meaning.contains(", marked by ") {
        ", marked"
    } else {
        ""
    };
    (meaning.split([' ', ',']).next().unwrap_or_default(), marked)
}

/// The traces of a task, with its own announcement and those of others instead of their numbers.
fn by_owner(task: usize, traces: &str) -> String {
    (0..8).fold(traces.to_string(), |text, owner| {
        let whose = if owner == task { "its own" } else { "another's" };
        text.replace(&format!("announcement {owner}"), whose)
    })
}

/// The last print of a run stands in a page as it is told.
fn page_shows_last(page: &str, run: [&str; 2]) {
    let told = drive(&["run", run[0], run[1]], b"").text();
    let last = told.rfind("> m\n").expect("a print");
    let block: String = told[last..].lines().map(|line| format!("    {line}\n")).collect();
    let page = std::fs::read_to_string(page).expect("the page");
    assert!(page.contains(&format!("\n\n{block}\n")), "{block}");
}

#[test]
fn the_pages_show_prints() {
    let flag = "../crates/bench/data/table.bin";
    page_shows_last("../README.md", [flag, "../crates/bench/stdin"]);
    page_shows_last("README.md", [flag, EXAMPLE]);
}
