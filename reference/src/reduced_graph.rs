//! All settled points of a chase over the object that stands still, and the victim's longest operation among them.

use crate::cells::Announcement;
use crate::configuration::Configuration;
use crate::estimate::distance;
use crate::longest::{longest_from_all, Counted};
use crate::longest_path::longest_path;
use crate::packed_point::{pack, unpack, MOST_PACKED_TASKS};
use crate::reduced::Chase;
use crate::search::Found;

const FREE: u32 = u32::MAX;

/// The points in the order of their finding. From each point one move leads on for each task.
pub struct ReducedGraph<'a> {
    chase: Chase<'a>,
    tasks: usize,
    points: Vec<u64>,
    slots: Vec<u32>,
    targets: Vec<u32>,
    own_steps: Vec<u8>,
    parents: Vec<u32>,
}

impl<'a> ReducedGraph<'a> {
    pub fn explore(chase: Chase<'a>, tasks: usize) -> ReducedGraph<'a> {
        assert!(tasks <= MOST_PACKED_TASKS);
        let mut graph = ReducedGraph {
            chase,
            tasks,
            points: Vec::new(),
            slots: vec![FREE; 1 << 16],
            targets: Vec::new(),
            own_steps: Vec::new(),
            parents: Vec::new(),
        };
        let (start, mut made) = graph.start();
        graph.number_of(pack(&start, chase.victim), FREE);
        let mut next = 0;
        while next < graph.points.len() {
            let before = unpack(graph.points[next], tasks, chase.victim);
            for task in 0..tasks {
                made.clear();
                let mut after = before;
                let own_steps = chase.go_on(&mut after, task, &mut made);
                let target = graph.number_of(pack(&after, chase.victim), next as u32);
                graph.targets.push(target);
                graph.own_steps.push(own_steps as u8);
            }
            next += 1;
        }
        graph
    }

    /// The first settled point, and the calls that lead to it.
    fn start(&self) -> (Configuration, Vec<u8>) {
        let mut start = Configuration::started(self.chase.table, self.tasks).expect("the object is valid");
        let mut made = Vec::new();
        self.chase.settle(&mut start, &mut made);
        (start, made)
    }

    /// The number of a point, a new one if it was not met before.
    fn number_of(&mut self, packed: u64, parent: u32) -> u32 {
        let slot = self.slot_of(packed);
        if self.slots[slot] != FREE {
            return self.slots[slot];
        }
        let number = self.points.len() as u32;
        self.points.push(packed);
        self.parents.push(parent);
        self.slots[slot] = number;
        if 2 * self.points.len() > self.slots.len() {
            self.grow();
        }
        number
    }

    fn slot_of(&self, packed: u64) -> usize {
        let mixed = packed.wrapping_mul(0x9e37_79b9_7f4a_7c15);
        let mut slot = (mixed ^ (mixed >> 29)) as usize & (self.slots.len() - 1);
        while self.slots[slot] != FREE && self.points[self.slots[slot] as usize] != packed {
            slot = (slot + 1) & (self.slots.len() - 1);
        }
        slot
    }

    fn grow(&mut self) {
        self.slots = vec![FREE; 2 * self.slots.len()];
        for number in 0..self.points.len() {
            let slot = self.slot_of(self.points[number]);
            self.slots[slot] = number as u32;
        }
    }

    /// For each point the longest count of the victim's own steps from there on.
    pub fn longest_counts(&self) -> Result<Vec<u32>, String> {
        longest_from_all(self)
    }

    /// The longest counts from points at which the response has been handed over, and from those at which the
    /// operation waits and the head is free, these by how often somebody else can still be applied before it.
    pub fn longest_by_part(&self, longest: &[u32]) -> (u32, Vec<u32>) {
        let victim = self.chase.victim;
        let mut after_response = 0;
        let mut by_distance = Vec::new();
        for (&packed, &count) in self.points.iter().zip(longest) {
            let point = unpack(packed, self.tasks, victim);
            if point.is_cleared(victim) {
                after_response = count.max(after_response);
            } else if point.content(victim) != Announcement::Empty && point.holder().is_none() {
                let distance = distance(&point, victim);
                by_distance.resize(by_distance.len().max(distance + 1), 0);
                by_distance[distance] = count.max(by_distance[distance]);
            }
        }
        (after_response, by_distance)
    }

    /// The longest operation of the victim, with a whole schedule that makes it.
    pub fn longest_operation(&self, longest: &[u32]) -> Result<Found, String> {
        let own_steps = longest.iter().copied().max().unwrap_or(0);
        let best = longest.iter().position(|&count| count == own_steps);
        let best = best.ok_or("nothing was explored")?;
        let mut moves = self.way_to(best);
        moves.extend(longest_path(self, longest, best));
        let (mut point, mut calls) = self.start();
        for task in moves {
            self.chase.go_on(&mut point, task, &mut calls);
        }
        Ok(Found { own_steps, calls })
    }

    /// The tasks that move along the way on which a point was found.
    fn way_to(&self, point: usize) -> Vec<usize> {
        let mut moves = Vec::new();
        let mut target = point;
        while self.parents[target] != FREE {
            let parent = self.parents[target] as usize;
            let leads_here = |&task: &usize| self.targets[parent * self.tasks + task] as usize == target;
            let task = (0..self.tasks).find(leads_here);
            moves.push(task.expect("a point is found from its parent"));
            target = parent;
        }
        moves.reverse();
        moves
    }
}

impl Counted for ReducedGraph<'_> {
    fn count_points(&self) -> usize {
        self.points.len()
    }

    fn is_pending(&self, point: usize) -> bool {
        let configuration = unpack(self.points[point], self.tasks, self.chase.victim);
        configuration.record(self.chase.victim).is_pending()
    }

    /// The place of a transition is the task that moves.
    fn transition(&self, point: usize, place: usize) -> Option<(usize, u32)> {
        let number = point * self.tasks + place;
        (place < self.tasks).then(|| (self.targets[number] as usize, u32::from(self.own_steps[number])))
    }
}

#[cfg(test)]
mod tests {
    use super::*;
    use crate::explore::Graph;
    use crate::longest::SeenBy;
    use crate::objects::{changing_objects, still, still_object};
    use crate::replay::replay;

    #[test]
    fn the_longest_operations_are_those_of_the_whole_exploration() {
        let table = still();
        for (tasks, stated) in [(1, 17), (2, 124)] {
            let graph = ReducedGraph::explore(Chase::of_still(&table), tasks);
            let found = graph.longest_operation(&graph.longest_counts().unwrap()).unwrap();
            assert_eq!(found.own_steps, stated);
            for (name, table, operation) in changing_objects() {
                let replayed = replay(&table, operation, tasks, 0, &found.calls);
                assert_eq!(replayed, Ok(stated), "{name}");
            }
        }
    }

    #[test]
    fn each_apply_of_another_adds_at_most_31_steps_for_two_tasks() {
        let table = still();
        let graph = ReducedGraph::explore(Chase::of_still(&table), 2);
        let parts = graph.longest_by_part(&graph.longest_counts().unwrap());
        assert_eq!(parts, (16, vec![40, 71, 101, 123]));
    }

    #[test]
    fn points_are_unpacked_as_they_were_packed() {
        let table = still();
        let graph = ReducedGraph::explore(Chase::of_still(&table), 2);
        for &packed in &graph.points {
            assert_eq!(pack(&unpack(packed, 2, 0), 0), packed);
        }
    }

    /// README.md has these numbers.
    #[test]
    fn the_object_that_stands_still_has_few_points() {
        let object = still_object();
        for (tasks, whole_points, reduced_points) in [(1, 18, 17), (2, 31_452, 4_473)] {
            let whole = Graph::explore(object.system(), tasks).unwrap();
            let reduced = ReducedGraph::explore(Chase::of_still(&object.table), tasks);
            assert_eq!(
                (whole.count_points(), reduced.count_points()),
                (whole_points, reduced_points)
            );
        }
    }

    #[test]
    fn a_settled_point_has_the_same_longest_count_in_both_explorations() {
        let object = still_object();
        let chase = Chase::of_still(&object.table);
        let reduced = ReducedGraph::explore(chase, 2);
        let reduced_counts = reduced.longest_counts().unwrap();
        let whole = Graph::explore(object.system(), 2).unwrap();
        let whole_counts = longest_from_all(&SeenBy {
            graph: &whole,
            task: 0,
        })
        .unwrap();
        let mut compared = 0;
        for (number, count) in whole_counts.iter().enumerate() {
            let point = whole.point(number);
            if (0..2).any(|task| chase.is_forced(&point, task)) {
                continue;
            }
            let slot = reduced.slots[reduced.slot_of(pack(&point, 0))];
            assert_eq!(reduced_counts.get(slot as usize), Some(count), "{point:?}");
            compared += 1;
        }
        assert!(compared >= reduced.count_points());
    }
}
