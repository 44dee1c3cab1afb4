//! The exact longest count of own steps of one operation, over all schedules.
//!
//! The points at which a task's operation is pending form a graph whose edges weigh 1 if they are steps of that
//! task, else 0. If the task always ends, no cycle contains an own step. So the strongly connected parts are
//! contracted, and the longest path through them is the longest count.

use crate::explore::Graph;

const UNSEEN: u32 = u32::MAX;
const CLOSED: u32 = u32::MAX - 1;

/// Points and the transitions between them, as one task counts them.
pub trait Counted {
    fn count_points(&self) -> usize;
    fn is_pending(&self, point: usize) -> bool;
    /// Target and own steps of one of the transitions that leave a point, by their places.
    fn transition(&self, point: usize, place: usize) -> Option<(usize, u32)>;
}

/// A graph of all points, seen by one of its tasks.
pub struct SeenBy<'a> {
    pub graph: &'a Graph,
    pub task: usize,
}

impl Counted for SeenBy<'_> {
    fn count_points(&self) -> usize {
        self.graph.count_points()
    }

    fn is_pending(&self, point: usize) -> bool {
        self.graph.is_pending(point, self.task)
    }

    fn transition(&self, point: usize, place: usize) -> Option<(usize, u32)> {
        let edge = self.graph.edges_of(point).get(place)?;
        let own = edge.is_step && usize::from(edge.task) == self.task;
        Some((edge.target as usize, u32::from(own)))
    }
}

/// The longest count of own steps, or the news that there is none.
pub fn longest_own_steps(graph: &Graph, task: usize) -> Result<u32, String> {
    let longest = longest_from_all(&SeenBy { graph, task })?;
    Ok(longest.into_iter().max().unwrap_or(0))
}

/// For each point the longest count of own steps from there to the end; 0 where nothing is pending.
pub fn longest_from_all(graph: &impl Counted) -> Result<Vec<u32>, String> {
    let mut search = Search {
        graph,
        lowest: vec![UNSEEN; graph.count_points()],
        longest: vec![0; graph.count_points()],
        open: Vec::new(),
        met: 0,
    };
    for number in 0..graph.count_points() {
        if graph.is_pending(number) && search.lowest[number] == UNSEEN {
            search.run(number)?;
        }
    }
    Ok(search.longest)
}

/// Tarjan's search with its own stack. Parts are closed after all parts that they lead to.
struct Search<'a, G: Counted> {
    graph: &'a G,
    /// UNSEEN, CLOSED, or the lowest number of an open point that is known to be reached.
    lowest: Vec<u32>,
    /// For closed points: the longest count of own steps from here to the end.
    longest: Vec<u32>,
    open: Vec<usize>,
    met: u32,
}

struct Visit {
    point: usize,
    order: u32,
    next_place: usize,
}

impl<G: Counted> Search<'_, G> {
    fn run(&mut self, root: usize) -> Result<(), String> {
        let mut path = vec![self.meet(root)];
        while let Some(visit) = path.last_mut() {
            let point = visit.point;
            if let Some((target, _)) = self.graph.transition(point, visit.next_place) {
                if self.graph.is_pending(target) && self.lowest[target] == UNSEEN {
                    let next = self.meet(target);
                    path.push(next);
                } else {
                    visit.next_place += 1;
                    self.note_reached(point, target);
                }
                continue;
            }
            if self.lowest[point] == visit.order {
                self.close_part(point)?;
            }
            path.pop();
        }
        Ok(())
    }

    fn meet(&mut self, point: usize) -> Visit {
        let order = self.met;
        self.met += 1;
        self.lowest[point] = order;
        self.open.push(point);
        Visit {
            point,
            order,
            next_place: 0,
        }
    }

    /// A point that is unseen here is one at which nothing is pending.
    fn note_reached(&mut self, point: usize, target: usize) {
        if self.lowest[target] < CLOSED {
            self.lowest[point] = self.lowest[point].min(self.lowest[target]);
        }
    }

    /// Takes the part of a root from the open points and gives all of them its longest count.
    fn close_part(&mut self, root: usize) -> Result<(), String> {
        let first = self
            .open
            .iter()
            .rposition(|&point| point == root)
            .expect("the root is open");
        let part = self.open.split_off(first);
        let mut longest = 0;
        for &point in &part {
            longest = longest.max(self.longest_leaving(point)?);
        }
        for &point in &part {
            self.lowest[point] = CLOSED;
            self.longest[point] = longest;
        }
        Ok(())
    }

    /// The longest count over the transitions that lead out of the open part of a point.
    fn longest_leaving(&self, point: usize) -> Result<u32, String> {
        let mut longest = 0;
        let mut place = 0;
        while let Some((target, own_steps)) = self.graph.transition(point, place) {
            let inside = self.graph.is_pending(target) && self.lowest[target] < CLOSED;
            match inside {
                true if own_steps > 0 => return Err("a task may make own steps for ever".to_string()),
                true => {}
                false => longest = longest.max(self.longest[target] + own_steps),
            }
            place += 1;
        }
        Ok(longest)
    }
}

#[cfg(test)]
mod tests {
    use super::*;
    use crate::explore::Edge;

    fn own(target: u32) -> Edge {
        Edge {
            target,
            task: 0,
            is_step: true,
        }
    }

    fn other(target: u32) -> Edge {
        Edge {
            target,
            task: 1,
            is_step: true,
        }
    }

    #[test]
    fn the_longest_of_several_paths_is_found() {
        let pending = [true, true, true, false];
        let graph = Graph::of_edges(
            &pending,
            &[&[own(1), own(3)], &[other(2), own(3)], &[own(3)], &[]],
        );
        assert_eq!(longest_own_steps(&graph, 0), Ok(2));
    }

    #[test]
    fn cycles_of_others_cost_nothing() {
        let pending = [true, true, true, false];
        let graph = Graph::of_edges(
            &pending,
            &[&[other(1), own(3)], &[other(0), own(2)], &[other(2), own(3)], &[]],
        );
        assert_eq!(longest_own_steps(&graph, 0), Ok(2));
    }

    #[test]
    fn an_own_step_in_a_cycle_is_found() {
        let pending = [true, true, false];
        let graph = Graph::of_edges(&pending, &[&[own(1), own(2)], &[other(0)], &[]]);
        assert!(longest_own_steps(&graph, 0).is_err());
        let graph = Graph::of_edges(&pending, &[&[own(0)], &[own(2)], &[]]);
        assert!(longest_own_steps(&graph, 0).is_err());
    }

    #[test]
    fn a_step_after_the_end_is_not_counted() {
        let pending = [true, false, true];
        let graph = Graph::of_edges(&pending, &[&[own(1)], &[other(2)], &[own(1)]]);
        assert_eq!(longest_own_steps(&graph, 0), Ok(1));
    }
}
