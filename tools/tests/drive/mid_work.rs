//! Runs that are printed in mid-work, where generated ones seldom come.

use reference::script_cases::{script, Script};
use reference::table_file::TableFile;

pub const EXAMPLE: &str = "examples/mid-work.lines";

fn steps(task: usize, count: usize) -> String {
    format!("s {task}\n").repeat(count)
}

/// Task 0 has set the flag and holds the head, and task 1, which clears it, is linked there to help.
fn about_to_help(tasks: usize) -> String {
    let (applied, linked) = (steps(0, 6), steps(1, 4));
    format!("n {tasks}\nb 0 1\n{applied}b 1 2\n{linked}m\n")
}

/// Task 0 ends, and task 1 links its announcement, which is empty by then.
fn linked_to_an_empty_announcement(tasks: usize) -> String {
    format!("{}d 0\nm\n{}m\n", about_to_help(tasks), steps(1, 2))
}

/// Meanwhile task 0 reads, and then begins to set the flag, without a step.
fn the_owner_goes_on() -> String {
    format!(
        "{}b 0 0\nm\ns 0\nm\nb 0 1\nm\n{}m\nd 1\nm\n",
        linked_to_an_empty_announcement(2),
        steps(0, 1)
    )
}

/// With its third operation task 2 applies that of task 1, which is linked to announcement 0 all the while; then it hands the
/// response over and clears the head.
fn the_holder_is_linked_elsewhere() -> String {
    let linked = linked_to_an_empty_announcement(3);
    let (applies, hands_over) = (steps(2, 6), steps(2, 7));
    format!("{linked}b 2 1\nd 2\nb 2 2\nd 2\nb 2 1\n{applies}m\n{hands_over}m\ns 2\nm\nd 1\nm\nd 2\nm\n")
}

/// Task 1 hands the response over, task 0 links it in its own announcement, and task 1 clears the head.
fn linked_to_the_own_response() -> String {
    let helped = about_to_help(2);
    let (links_head, hands_over, links_own, clears) = (steps(0, 3), steps(1, 4), steps(0, 2), steps(1, 3));
    format!("{helped}{links_head}m\n{hands_over}m\n{links_own}m\n{clears}m\nd 0\nm\nd 1\nm\n")
}

/// Eight tasks announce one after another, and one that reads comes and goes.
fn all_of_eight() -> String {
    let begun: String = (0..8).map(|task| format!("b {task} 1\nm\n")).collect();
    let announced: String = (0..8).map(|task| format!("s {task}\nm\n")).collect();
    format!("n 8\nb 3 0\nm\ns 3\n{begun}{announced}d 7\nm\nb 7 0\nm\n")
}

/// Scripts over the flag object.
pub fn mid_work_scripts() -> Vec<Script> {
    let example = std::fs::read_to_string(EXAMPLE).expect("the example");
    let inputs = [
        ("mid-work", example),
        ("the owner goes on", the_owner_goes_on()),
        ("the holder is linked elsewhere", the_holder_is_linked_elsewhere()),
        ("linked to the own response", linked_to_the_own_response()),
        ("all of eight", all_of_eight()),
    ];
    let flag = TableFile::flag().to_bytes();
    let scripts = inputs.map(|(name, input)| script(name, Some(flag.clone()), &input));
    scripts.into()
}
