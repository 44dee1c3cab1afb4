//! A search for long operations by a scheduler that works against one task.
//!
//! Points are met in the order of the victim's own steps. Of those with the same count the most promising by the
//! estimate are gone on from, a fixed number of them; seeded chance decides between points of about the same promise.

use std::cmp::Ordering;
use std::collections::{BinaryHeap, HashSet, VecDeque};

use crate::configuration::Configuration;
use crate::estimate::estimate;
use crate::opening::Opening;
use crate::random::Random;
use crate::reduced::Chase;

/// How broad the search is, and how much chance there is in it, in quarters of an own step.
#[derive(Clone, Copy)]
pub struct Effort {
    pub width: usize,
    pub chance: usize,
    pub seed: u64,
}

/// A whole schedule, as the task of each call, that ends with the last step of the victim's operation.
pub struct Found {
    pub own_steps: u32,
    pub calls: Vec<u8>,
}

/// A call of a task, or all its calls up to the next change of a cell.
#[derive(Clone, Copy)]
struct Move {
    task: u8,
    to_next_change: bool,
}

/// A move that was gone on from, and the one before it.
struct Gone {
    before: Option<usize>,
    made: Move,
}

struct Node {
    point: Configuration,
    promise: i64,
    before: Option<usize>,
    made: Option<Move>,
    number: usize,
}

impl PartialEq for Node {
    fn eq(&self, other: &Node) -> bool {
        self.number == other.number
    }
}

impl Eq for Node {}

impl PartialOrd for Node {
    fn partial_cmp(&self, other: &Node) -> Option<Ordering> {
        Some(self.cmp(other))
    }
}

impl Ord for Node {
    /// The greater promise first, then the earlier node.
    fn cmp(&self, other: &Node) -> Ordering {
        let promise = self.promise.cmp(&other.promise);
        promise.then(other.number.cmp(&self.number))
    }
}

/// The longest operation that the search finds from an opening.
pub fn search(chase: Chase, opening: &Opening, effort: Effort) -> Found {
    let mut search = Search {
        chase,
        effort,
        random: Random::new(effort.seed),
        gone: Vec::new(),
        ahead: VecDeque::new(),
        nodes: 0,
        best: None,
    };
    search.run(opening.point);
    search.found(opening)
}

struct Search<'a> {
    chase: Chase<'a>,
    effort: Effort,
    random: Random,
    gone: Vec<Gone>,
    /// The points to come, by the own steps that they have more than the present ones.
    ahead: VecDeque<BinaryHeap<Node>>,
    nodes: usize,
    /// Own steps of the longest operation so far, with its last move and the one before that.
    best: Option<(u32, Option<usize>, Move)>,
}

impl Search<'_> {
    fn run(&mut self, start: Configuration) {
        self.put(0, start, None, None);
        let mut own_steps = 0;
        while !self.ahead.is_empty() {
            self.go_on_from_best(own_steps);
            self.ahead.pop_front();
            own_steps += 1;
        }
    }

    /// Goes on from the most promising points with the present count.
    fn go_on_from_best(&mut self, own_steps: u32) {
        let mut seen = HashSet::new();
        while seen.len() < self.effort.width {
            let Some(node) = self.ahead[0].pop() else { return };
            if !seen.insert(self.chase.hash(&node.point)) {
                continue;
            }
            let before = match node.made {
                None => None,
                Some(made) => {
                    self.gone.push(Gone {
                        before: node.before,
                        made,
                    });
                    Some(self.gone.len() - 1)
                }
            };
            self.try_moves(own_steps, &node.point, before);
        }
    }

    fn try_moves(&mut self, own_steps: u32, from: &Configuration, before: Option<usize>) {
        for task in 0..from.tasks {
            for to_next_change in [false, true] {
                let made = Move {
                    task: task as u8,
                    to_next_change,
                };
                let mut point = *from;
                let Some(more) = make_move(&self.chase, &mut point, made, &mut Vec::new()) else {
                    continue;
                };
                match point.record(self.chase.victim).is_pending() {
                    true => self.put(more as usize, point, before, Some(made)),
                    false => self.note_end(own_steps + more, before, made),
                }
            }
        }
    }

    fn put(&mut self, more: usize, point: Configuration, before: Option<usize>, made: Option<Move>) {
        while self.ahead.len() <= more {
            self.ahead.push_back(BinaryHeap::new());
        }
        let chance = self.random.below(self.effort.chance + 1) as i64;
        self.nodes += 1;
        self.ahead[more].push(Node {
            point,
            promise: 4 * i64::from(estimate(&point, self.chase.victim)) + chance,
            before,
            made,
            number: self.nodes,
        });
    }

    fn note_end(&mut self, own_steps: u32, before: Option<usize>, made: Move) {
        if self.best.is_none_or(|(most, _, _)| own_steps > most) {
            self.best = Some((own_steps, before, made));
        }
    }

    /// Makes the moves of the longest operation again, from the opening on, and notes their calls.
    fn found(&self, opening: &Opening) -> Found {
        let (own_steps, mut before, last) = self.best.expect("every operation ends");
        let mut moves = vec![last];
        while let Some(place) = before {
            moves.push(self.gone[place].made);
            before = self.gone[place].before;
        }
        let mut point = opening.point;
        let mut calls = opening.calls.clone();
        for &made in moves.iter().rev() {
            make_move(&self.chase, &mut point, made, &mut calls);
        }
        Found { own_steps, calls }
    }
}

/// Own steps of a move; none if it is no other than the single call.
fn make_move(chase: &Chase, point: &mut Configuration, made: Move, calls: &mut Vec<u8>) -> Option<u32> {
    let task = usize::from(made.task);
    let before = *point;
    let mut own_steps = chase.go_on(point, task, calls);
    if !made.to_next_change {
        return Some(own_steps);
    }
    if task == chase.victim || point.cells() != before.cells() {
        return None;
    }
    while point.cells() == before.cells() {
        own_steps += chase.go_on(point, task, calls);
    }
    Some(own_steps)
}

#[cfg(test)]
mod tests {
    use super::*;
    use crate::objects::{changing_objects, still};
    use crate::replay::replay;

    fn found(tasks: usize) -> Found {
        let table = still();
        let chase = Chase::of_still(&table);
        let effort = Effort {
            width: 20,
            chance: 0,
            seed: 0,
        };
        search(chase, &Opening::new(&chase, tasks), effort)
    }

    #[test]
    fn the_exact_longest_operations_of_one_and_two_tasks_are_found() {
        assert_eq!(found(1).own_steps, 17);
        assert_eq!(found(2).own_steps, 124);
    }

    #[test]
    fn a_found_schedule_has_the_same_count_on_every_object() {
        for tasks in 1..=5 {
            let found = found(tasks);
            for (name, table, operation) in changing_objects() {
                let replayed = replay(&table, operation, tasks, 0, &found.calls);
                assert_eq!(replayed, Ok(found.own_steps), "{name}");
            }
        }
    }
}
