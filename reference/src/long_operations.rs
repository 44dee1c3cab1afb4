//! The commands `search` and `longest`: long operations found by an adversarial scheduler for one to eight tasks, and
//! the exact longest for one to three.

use crate::ceiling::ceiling;
use crate::longest::Counted;
use crate::objects::{counter_up, still};
use crate::opening::Opening;
use crate::potential::at_begin;
use crate::reduced::Chase;
use crate::reduced_graph::ReducedGraph;
use crate::replay::replay;
use crate::search::{search, Effort, Found};

const MOST_EXACT_TASKS: usize = 3;
/// Points with the same count that are gone on from, for one to eight tasks.
const WIDTHS: [usize; 8] = [3_000, 3_000, 3_000, 3_000, 1_500, 600, 300, 200];
const SEEDS: u64 = 4;
const CHANCE: usize = 8;
const VICTIM: usize = 0;

/// A line for each number of tasks: the ceiling, the proved bound, the longest operation found, and counts alone.
pub fn search_for(tasks: &[usize]) -> Result<(), String> {
    for &tasks in tasks {
        let found = longest_found(tasks);
        verify(tasks, &found)?;
        let alone = counts_alone(tasks)?;
        let most = ceiling(tasks).map_err(|_| format!("no ceiling for {tasks} tasks"))?;
        println!(
            "n {tasks}: ceiling {most}, proved {}, longest found {} own steps in {} calls, alone {alone}",
            at_begin(tasks),
            found.own_steps,
            found.calls.len()
        );
    }
    Ok(())
}

/// The longest of several searches: one without chance, the others with different seeds.
fn longest_found(tasks: usize) -> Found {
    let table = still();
    let chase = Chase::of_still(&table);
    let opening = Opening::new(&chase, tasks);
    let attempt = |seed: u64| {
        let effort = Effort {
            width: WIDTHS[tasks - 1],
            chance: if seed == 0 { 0 } else { CHANCE },
            seed,
        };
        search(chase, &opening, effort)
    };
    let found = (0..SEEDS).map(attempt);
    found
        .max_by_key(|found| found.own_steps)
        .expect("there are several attempts")
}

/// A schedule found on the object that stands still has the same count on the counter, whose state always changes.
fn verify(tasks: usize, found: &Found) -> Result<(), String> {
    let (table, operation) = counter_up();
    let replayed = replay(&table, operation, tasks, VICTIM, &found.calls)?;
    match replayed == found.own_steps {
        true => Ok(()),
        false => Err(format!(
            "n {tasks}: found {} own steps, replayed {replayed}",
            found.own_steps
        )),
    }
}

/// Own steps of changing operations of a task alone, for every priority that it can have.
fn counts_alone(tasks: usize) -> Result<String, String> {
    let (table, operation) = counter_up();
    let mut counts = Vec::new();
    let mut calls = Vec::new();
    while counts.len() < tasks {
        calls.push(VICTIM as u8);
        if let Ok(count) = replay(&table, operation, tasks, VICTIM, &calls) {
            counts.push(count);
        }
    }
    let least = counts.iter().min().expect("there is a task");
    let most = counts.iter().max().expect("there is a task");
    Ok(match least == most {
        true => format!("{least}"),
        false => format!("{least} to {most}"),
    })
}

/// For each number of tasks the exact longest operation over all objects and all schedules, and its parts.
pub fn exact_for(tasks: &[usize]) -> Result<(), String> {
    for &tasks in tasks {
        if tasks > MOST_EXACT_TASKS {
            return Err(format!(
                "the exact longest operation is known for n up to {MOST_EXACT_TASKS}"
            ));
        }
        let table = still();
        let graph = ReducedGraph::explore(Chase::of_still(&table), tasks);
        let longest = graph.longest_counts()?;
        let found = graph.longest_operation(&longest)?;
        verify(tasks, &found)?;
        println!(
            "n {tasks}: {} points, longest operation {} own steps in {} calls",
            graph.count_points(),
            found.own_steps,
            found.calls.len()
        );
        let (after_response, by_distance) = graph.longest_by_part(&longest);
        println!("n {tasks}: after the response at most {after_response} own steps");
        println!("n {tasks}: with a free head, by applies of others to come: {by_distance:?}");
    }
    Ok(())
}

#[cfg(test)]
mod tests {
    use super::*;

    #[test]
    fn a_task_alone_needs_one_step_more_if_it_looks_at_another() {
        assert_eq!(counts_alone(1), Ok("17".to_string()));
        assert_eq!(counts_alone(3), Ok("17 to 18".to_string()));
    }

    #[test]
    fn a_wrong_count_is_found_by_the_replay() {
        let calls = vec![0; 18];
        let right = Found {
            own_steps: 17,
            calls: calls.clone(),
        };
        assert_eq!(verify(1, &right), Ok(()));
        assert!(verify(1, &Found { own_steps: 18, calls }).is_err());
    }
}
