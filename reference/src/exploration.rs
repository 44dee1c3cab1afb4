//! The command `explore`: all schedules of one and two tasks, then long random schedules of three to eight.

use crate::explore::{Graph, MOST_EXPLORED_TASKS};
use crate::longest::longest_own_steps;
use crate::objects::explored_objects;
use crate::random_runs;

/// The longest counts of own steps that the design states for one and two tasks.
const STATED_LONGEST: [u32; MOST_EXPLORED_TASKS] = [17, 124];
const RANDOM_CALLS: usize = 150_000;

/// A summary line, or the first rule that was broken.
pub fn explore_all() -> Result<String, String> {
    let mut parts = Vec::new();
    for tasks in 1..=MOST_EXPLORED_TASKS {
        parts.push(explore_objects(tasks)?);
    }
    parts.push(run_schedules()?);
    Ok(format!("explore: {}", parts.join("; ")))
}

fn explore_objects(tasks: usize) -> Result<String, String> {
    let mut points = 0;
    let mut transitions = 0;
    let mut longest = 0;
    for object in explored_objects() {
        let graph = Graph::explore(object.system(), tasks)
            .map_err(|message| format!("{}: {message}", object.name))?;
        points += graph.count_points();
        transitions += graph.count_transitions();
        for task in 0..tasks {
            let count = longest_own_steps(&graph, task)?;
            longest = longest.max(count);
        }
    }
    let stated = STATED_LONGEST[tasks - 1];
    if longest != stated {
        return Err(format!(
            "explore: n {tasks}: longest operation {longest} own steps, stated {stated}"
        ));
    }
    Ok(format!(
        "n {tasks}: {points} points, {transitions} transitions, longest operation {longest} own steps"
    ))
}

fn run_schedules() -> Result<String, String> {
    let mut calls = 0;
    let mut ended = 0;
    let mut most_own_steps = 0;
    for tasks in 3..=8 {
        for (seed, object) in explored_objects().iter().enumerate() {
            let findings = random_runs::run(object.system(), tasks, RANDOM_CALLS, seed as u64)?;
            calls += findings.calls;
            ended += findings.ended;
            most_own_steps = most_own_steps.max(findings.most_own_steps);
        }
    }
    Ok(format!(
        "n 3 to 8: {calls} random calls, {ended} operations ended, longest seen {most_own_steps}"
    ))
}
