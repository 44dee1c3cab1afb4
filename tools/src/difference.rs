//! Why two files that the library writes are two objects: both are walked together, from start to start.

use std::collections::{HashMap, HashSet};

use crate::object::{Entry, Object};

/// What two files differ in. Lists of operations are made from the start.
pub enum Difference {
    /// The numbers of operations.
    Operations([usize; 2]),
    /// What an operation responds after a list.
    Response {
        list: Vec<usize>,
        operation: usize,
        responses: [u8; 2],
    },
    /// Two lists lead to one state in the file at this place, 0 or 1, and to two in the other.
    Meeting {
        place: usize,
        lists: [Vec<usize>; 2],
        /// Whether responses are equal after every list.
        alike: bool,
    },
}

/// Two states, one of each file, that a list of operations leads to.
struct Pair {
    states: [usize; 2],
    /// The length of the list, which is a shortest one.
    length: usize,
    /// Of the list before its last operation, the place of its pair; and that operation.
    from: Option<(usize, usize)>,
}

/// The pairs that lists of operations lead to, those of shorter lists first.
struct Walk<'a> {
    objects: &'a [Object<'a>; 2],
    pairs: Vec<Pair>,
    met: HashSet<[usize; 2]>,
}

impl Difference {
    /// Of the differences that there are, one that names the fewest operations; a response comes before a meeting.
    ///
    /// Files that differ have one. If no responses differ and no lists meet in one file alone, the pairs put the states of
    /// both together one to one. The library writes only states that can be reached, numbered in the order of first meeting,
    /// which is that of the walk: so states of a pair have equal numbers, all entries are equal, and the files are.
    pub fn between(objects: &[Object; 2]) -> Option<Difference> {
        let operations = [0, 1].map(|place| objects[place].operations());
        if operations[0] != operations[1] {
            return Some(Difference::Operations(operations));
        }
        let walk = Walk::through(objects);
        let response = walk.response();
        let meeting = walk.meeting(response.is_none());
        let differences = response.into_iter().chain(meeting);
        differences.min_by_key(Difference::operations_named)
    }

    fn operations_named(&self) -> usize {
        match self {
            Difference::Operations(_) => 0,
            Difference::Response { list, .. } => list.len() + 1,
            Difference::Meeting { lists, .. } => lists.iter().map(Vec::len).sum(),
        }
    }
}

impl<'a> Walk<'a> {
    /// Breadth first, operations from 0 up.
    fn through(objects: &'a [Object<'a>; 2]) -> Walk<'a> {
        let starts = [0, 1].map(|place| usize::from(objects[place].shape.start));
        let mut walk = Walk {
            objects,
            pairs: Vec::new(),
            met: HashSet::new(),
        };
        walk.meet(starts, None);
        let mut at = 0;
        while at < walk.pairs.len() {
            for operation in 0..objects[0].operations() {
                let next = walk.entries(at, operation).map(|entry| usize::from(entry.next));
                walk.meet(next, Some((at, operation)));
            }
            at += 1;
        }
        walk
    }

    /// A pair that was met by another list has its place.
    fn meet(&mut self, states: [usize; 2], from: Option<(usize, usize)>) {
        if self.met.insert(states) {
            let length = from.map_or(0, |(before, _)| self.pairs[before].length + 1);
            self.pairs.push(Pair { states, length, from });
        }
    }

    /// What an operation leads to in the states of a pair.
    fn entries(&self, pair: usize, operation: usize) -> [Entry; 2] {
        let states = self.pairs[pair].states;
        [0, 1].map(|place| self.objects[place].entry(states[place], operation))
    }

    /// The list that leads to a pair.
    fn list(&self, pair: usize) -> Vec<usize> {
        let mut list = Vec::new();
        let mut from = self.pairs[pair].from;
        while let Some((before, operation)) = from {
            list.push(operation);
            from = self.pairs[before].from;
        }
        list.reverse();
        list
    }

    /// The first pair with an operation whose responses differ.
    fn response(&self) -> Option<Difference> {
        (0..self.pairs.len()).find_map(|pair| self.response_after(pair))
    }

    fn response_after(&self, pair: usize) -> Option<Difference> {
        let responses = |operation| self.entries(pair, operation).map(|entry| entry.response);
        let mut operations = 0..self.objects[0].operations();
        let operation = operations.find(|&operation| responses(operation)[0] != responses(operation)[1])?;
        Some(Difference::Response {
            list: self.list(pair),
            operation,
            responses: responses(operation),
        })
    }

    /// Two pairs that have one state of one file: those with the shortest lists together, and of such the first.
    fn meeting(&self, alike: bool) -> Option<Difference> {
        let meetings = [0, 1].into_iter().flat_map(|place| self.meetings_in(place));
        let length = |pair: usize| self.pairs[pair].length;
        let (place, pairs) =
            meetings.min_by_key(|(_, [first, second])| (length(*first) + length(*second), *second))?;
        Some(Difference::Meeting {
            place,
            lists: pairs.map(|pair| self.list(pair)),
            alike,
        })
    }

    /// Every pair with the first one that has its state of the file at this place, if that is another pair.
    fn meetings_in(&self, place: usize) -> Vec<(usize, [usize; 2])> {
        let mut first_of = HashMap::new();
        let states = self.pairs.iter().map(|pair| pair.states[place]);
        let with_first = (0..)
            .zip(states)
            .map(|(pair, state)| [*first_of.entry(state).or_insert(pair), pair]);
        with_first
            .filter(|[first, pair]| first != pair)
            .map(|pairs| (place, pairs))
            .collect()
    }
}
