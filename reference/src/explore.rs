//! All schedules of one or two tasks: every point that can be reached, every transition checked.

use crate::book::Book;
use crate::configuration::{Call, Configuration};
use crate::machine::Answer;
use crate::record::Record;
use crate::transition::{Checked, System};

pub const MOST_EXPLORED_TASKS: usize = 2;
const RECORD_WORDS: usize = 3;
const PACKED_WORDS: usize = MOST_EXPLORED_TASKS + 1 + RECORD_WORDS * MOST_EXPLORED_TASKS;

/// A point without its step counts, as words to be compared.
type Packed = [u64; PACKED_WORDS];

fn pack(point: &Configuration) -> Packed {
    let mut packed = [0; PACKED_WORDS];
    packed[..=point.tasks].copy_from_slice(point.cells());
    let places = packed[MOST_EXPLORED_TASKS + 1..].chunks_exact_mut(RECORD_WORDS);
    for (words, record) in places.zip(point.row()) {
        words.copy_from_slice(&pack_record(record));
    }
    packed
}

fn pack_record(record: &Record) -> [u64; RECORD_WORDS] {
    let small = u64::from(record.phase)
        | u64::from(record.operation) << 8
        | u64::from(record.priority) << 24
        | u64::from(record.payload) << 32;
    [small, record.head, record.announcement]
}

fn unpack(packed: &Packed, tasks: usize) -> Configuration {
    let records = packed[MOST_EXPLORED_TASKS + 1..].chunks_exact(RECORD_WORDS);
    let row: Vec<Record> = records.take(tasks).map(unpack_record).collect();
    Configuration::of_parts(&packed[..=tasks], &row)
}

fn unpack_record(words: &[u64]) -> Record {
    Record {
        phase: words[0] as u8,
        operation: (words[0] >> 8) as u16,
        priority: (words[0] >> 24) as u8,
        payload: (words[0] >> 32) as u32,
        head: words[1],
        announcement: words[2],
        steps: 0,
    }
}

/// Who makes the transition, and whether it is a step.
#[derive(Clone, Copy, Debug, PartialEq, Eq)]
pub struct Edge {
    pub target: u32,
    pub task: u8,
    pub is_step: bool,
}

/// All points, numbered in the order of their finding, with the transitions that leave them.
pub struct Graph {
    tasks: usize,
    points: Vec<Packed>,
    slots: Vec<u32>,
    edges: Vec<Edge>,
    first_edges: Vec<usize>,
}

const FREE: u32 = u32::MAX;

/// Makes a call at a point and checks it.
pub type Make<'a> = dyn Fn(&Configuration, Call) -> Checked + 'a;

impl Graph {
    /// Explores from the start; the first transition that breaks a rule ends it.
    pub fn explore(system: System, tasks: usize) -> Result<Graph, String> {
        Graph::explore_by(system, tasks, &|before, call| {
            system.make_checked(before, call, &mut Book::of(before))
        })
    }

    /// Explores by what makes and checks a call.
    pub fn explore_by(system: System, tasks: usize, make: &Make) -> Result<Graph, String> {
        assert!(tasks <= MOST_EXPLORED_TASKS);
        let start = system.start(tasks)?;
        let mut graph = Graph {
            tasks,
            points: Vec::new(),
            slots: vec![FREE; 1 << 16],
            edges: Vec::new(),
            first_edges: Vec::new(),
        };
        graph.number_of(&start);
        let mut next = 0;
        while next < graph.points.len() {
            graph.first_edges.push(graph.edges.len());
            graph.leave(system.begun, make, next)?;
            next += 1;
        }
        graph.first_edges.push(graph.edges.len());
        Ok(graph)
    }

    /// Makes at a point every step, and every begin of an operation below a number, that is accepted.
    fn leave(&mut self, begun: usize, make: &Make, number: usize) -> Result<(), String> {
        let before = unpack(&self.points[number], self.tasks);
        for task in 0..self.tasks {
            if before.record(task).is_pending() {
                self.follow(make, &before, Call::Step { task }, task)?;
                continue;
            }
            for operation in 0..begun {
                self.follow(make, &before, Call::Begin { task, operation }, task)?;
            }
        }
        Ok(())
    }

    fn follow(&mut self, make: &Make, before: &Configuration, call: Call, task: usize) -> Result<(), String> {
        let (after, answer) =
            make(before, call).map_err(|message| format!("{message}\nat {before:?}\nwith {call:?}"))?;
        let is_step = matches!(answer, Ok(Some(Answer::Running | Answer::Ended { .. })));
        let target = self.number_of(&after);
        self.edges.push(Edge {
            target,
            task: task as u8,
            is_step,
        });
        Ok(())
    }

    /// The number of a point, a new one if it was not met before.
    fn number_of(&mut self, point: &Configuration) -> u32 {
        let packed = pack(point);
        let slot = self.slot_of(&packed);
        if self.slots[slot] != FREE {
            return self.slots[slot];
        }
        let number = self.points.len() as u32;
        self.points.push(packed);
        self.slots[slot] = number;
        if 2 * self.points.len() > self.slots.len() {
            self.grow();
        }
        number
    }

    fn slot_of(&self, packed: &Packed) -> usize {
        let mut slot = hash(packed) as usize & (self.slots.len() - 1);
        while self.slots[slot] != FREE && self.points[self.slots[slot] as usize] != *packed {
            slot = (slot + 1) & (self.slots.len() - 1);
        }
        slot
    }

    fn grow(&mut self) {
        self.slots = vec![FREE; 2 * self.slots.len()];
        for number in 0..self.points.len() {
            let slot = self.slot_of(&self.points[number]);
            self.slots[slot] = number as u32;
        }
    }

    pub fn count_points(&self) -> usize {
        self.points.len()
    }

    pub fn count_transitions(&self) -> usize {
        self.edges.len()
    }

    pub fn edges_of(&self, number: usize) -> &[Edge] {
        &self.edges[self.first_edges[number]..self.first_edges[number + 1]]
    }

    pub fn is_pending(&self, number: usize, task: usize) -> bool {
        self.points[number][MOST_EXPLORED_TASKS + 1 + RECORD_WORDS * task] & 0xff != 0
    }
}

#[cfg(test)]
impl Graph {
    pub fn point(&self, number: usize) -> Configuration {
        unpack(&self.points[number], self.tasks)
    }

    /// A graph of the given edges, in which task 0 is pending at the named points.
    pub fn of_edges(pending: &[bool], edges: &[&[Edge]]) -> Graph {
        let mut graph = Graph {
            tasks: 1,
            points: vec![[0; PACKED_WORDS]; pending.len()],
            slots: Vec::new(),
            edges: edges.concat(),
            first_edges: vec![0],
        };
        for (number, leaving) in edges.iter().enumerate() {
            graph.points[number][MOST_EXPLORED_TASKS + 1] = u64::from(pending[number]);
            graph.first_edges.push(graph.first_edges[number] + leaving.len());
        }
        graph
    }
}

fn hash(packed: &Packed) -> u64 {
    let mix = |sum: u64, &word: &u64| (sum.rotate_left(5) ^ word).wrapping_mul(0x517c_c1b7_2722_0a95);
    let sum = packed.iter().fold(0, mix);
    sum ^ (sum >> 32)
}

#[cfg(test)]
mod tests {
    use super::*;
    use crate::objects::{explored_objects, still_object, Object};
    use crate::rules::Rules;

    #[test]
    fn points_are_unpacked_as_they_were_packed() {
        let record = Record {
            phase: 87,
            operation: 31,
            priority: 1,
            payload: 0x1_ffff,
            head: 1 << 44,
            announcement: 1 << 32,
            steps: 0,
        };
        let point = Configuration::of_parts(&[1 << 44, 2, 3], &[record, Record::idle(1)]);
        assert_eq!(unpack(&pack(&point), 2), point);
    }

    #[test]
    fn one_task_is_explored_whole() {
        for object in explored_objects() {
            let graph = Graph::explore(object.system(), 1).expect(object.name);
            assert!(graph.count_transitions() >= graph.count_points());
        }
    }

    /// A begin and a step that are refused for each task, and two for a task that isn't there.
    fn refused_calls(point: &Configuration, operations: usize) -> Vec<Call> {
        let begin = |task, operation| Call::Begin { task, operation };
        let of_task = |task: usize| match point.record(task).is_pending() {
            true => [begin(task, 0), begin(task, operations)],
            false => [Call::Step { task }, begin(task, operations)],
        };
        let task = point.tasks;
        let out_of_range = [begin(task, 0), Call::Step { task }];
        (0..task).flat_map(of_task).chain(out_of_range).collect()
    }

    fn assert_refused_calls_keep_points(object: &Object, tasks: usize) {
        let graph = Graph::explore(object.system(), tasks).unwrap();
        for number in 0..graph.count_points() {
            let before = graph.point(number);
            for call in refused_calls(&before, object.table.operations) {
                let mut after = before;
                assert!(after.make(Rules::MACHINE, &object.table, call).is_err());
                assert_eq!(after, before);
            }
        }
    }

    /// So what holds at the points that are explored also holds after a refused call.
    #[test]
    fn a_refused_call_leaves_every_point_as_it_is() {
        assert_refused_calls_keep_points(&still_object(), 2);
        assert_refused_calls_keep_points(&explored_objects()[0], 2);
        for object in explored_objects() {
            assert_refused_calls_keep_points(&object, 1);
        }
    }
}
