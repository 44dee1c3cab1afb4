//! The limits of every function of the archive, callees included.

use std::collections::{BTreeMap, BTreeSet};

use crate::calls::{groups, Group};
use crate::cycles::{cycle_of, test_found, Cycle};
use crate::given::Given;
use crate::graph::Graph;
use crate::listing::{Callee, Function, Listing};
use crate::paths::{loops, sum, Paths};
use crate::stack::{frame, RETURN_ADDRESS};
use crate::turns::{turns_of, Turns};

/// What a call of a function takes at most.
#[derive(Clone, Debug, Default, PartialEq, Eq)]
pub struct Limits {
    /// Bytes, the return address of the call counted.
    pub stack: u64,
    /// The most bytes below the stack pointer that a function uses without moving it.
    pub below: u64,
    pub instructions: u64,
    /// Functions that the archive does not hold. Of each only the call and its return address are counted.
    pub outside: BTreeSet<String>,
    pub vector_registers: BTreeSet<String>,
}

/// The limits of functions, by their names.
pub type Known = BTreeMap<String, Limits>;

/// The limits of a function's callees, by the instruction that calls.
type Callees = BTreeMap<usize, Limits>;

/// The limits of each function.
pub fn survey(listing: &Listing, given: &Given) -> Result<Known, String> {
    let is_missing = |(name, _): &&Turns| listing.function(name).is_none();
    if let Some((name, _)) = given.turns.iter().find(is_missing) {
        return Err(format!("{name} has limits of turns, but is not in the archive"));
    }
    let graphs = graphs(listing)?;
    let groups = groups(listing, &graphs);
    let mut survey = Survey {
        listing,
        given,
        graphs: &graphs,
        known: Known::new(),
    };
    let cycles = groups.iter().filter(|group| group.is_cycle);
    let cycles: Vec<_> = cycles.map(|group| survey.names(group)).collect();
    test_found(given.cycles, &cycles)?;
    for group in &groups {
        survey.add(group)?;
    }
    Ok(survey.known)
}

fn graphs(listing: &Listing) -> Result<Vec<Graph>, String> {
    let graph = |function: &Function| Graph::of(listing, function).map_err(|error| of(function, error));
    listing.functions.iter().map(graph).collect()
}

fn of(function: &Function, error: String) -> String {
    format!("{}: {error}", function.name)
}

/// What the members of a group may do.
struct Allowed<'a> {
    /// Whether they may enter loops.
    loops: bool,
    /// The limits of members that members call; none if they may call no member.
    members: Option<&'a Known>,
}

/// Of a group that is no cycle.
const ALL: Allowed = Allowed {
    loops: true,
    members: None,
};

struct Survey<'a> {
    listing: &'a Listing,
    given: &'a Given<'a>,
    /// In the order of the listing's functions.
    graphs: &'a [Graph],
    known: Known,
}

impl<'a> Survey<'a> {
    fn names(&self, group: &Group) -> BTreeSet<&'a str> {
        let functions = &self.listing.functions;
        group
            .members
            .iter()
            .map(|&at| functions[at].name.as_str())
            .collect()
    }

    /// Adds the limits of a group whose other callees are known.
    fn add(&mut self, group: &Group) -> Result<(), String> {
        let limits = match group.is_cycle {
            true => self.limits_of_cycle(group, cycle_of(self.given.cycles, &self.names(group))?)?,
            false => self.limits_of_members(group, &ALL)?,
        };
        self.known.extend(limits);
        Ok(())
    }

    /// First with nothing left, then with one left, and so on. With less left no more is taken.
    fn limits_of_cycle(&self, group: &Group, cycle: &Cycle) -> Result<Known, String> {
        let mut by_left: Vec<Known> = Vec::new();
        for left in 0..=cycle.most {
            let fallen = left.checked_sub(cycle.fall);
            let allowed = Allowed {
                loops: left > 0,
                members: fallen.map(|left| &by_left[left]),
            };
            let limits = self.limits_of_members(group, &allowed)?;
            by_left.push(limits);
        }
        Ok(by_left.pop().unwrap_or_default())
    }

    fn limits_of_members(&self, group: &Group, allowed: &Allowed) -> Result<Known, String> {
        let members = self.names(group);
        let limits = group.members.iter().map(|&at| {
            let (function, graph) = (&self.listing.functions[at], &self.graphs[at]);
            let callees = self.limits_of_callees(graph, &members, allowed);
            let limits = self.limits_of(function, graph, callees, allowed);
            let limits = limits.map_err(|error| of(function, error))?;
            Ok((function.name.clone(), limits))
        });
        limits.collect()
    }

    /// A call that is not made has none.
    fn limits_of_callees(&self, graph: &Graph, members: &BTreeSet<&str>, allowed: &Allowed) -> Callees {
        let limits = |callee: &Callee| match callee {
            Callee::Inside(name) if members.contains(name.as_str()) => Some(allowed.members?[name].clone()),
            Callee::Inside(name) => Some(self.known[name].clone()),
            Callee::Outside(name) => Some(of_outside(name)),
        };
        let callees = graph.callees.iter();
        callees
            .filter_map(|(&at, callee)| Some((at, limits(callee)?)))
            .collect()
    }

    fn limits_of(
        &self,
        function: &Function,
        graph: &Graph,
        callees: Callees,
        allowed: &Allowed,
    ) -> Result<Limits, String> {
        let loops = loops(&graph.edges)?;
        let turns = turns_of(self.given.turns, &function.name, &loops)?;
        let not_made = graph
            .callees
            .keys()
            .copied()
            .filter(|at| !callees.contains_key(at));
        let not_entered = loops.iter().filter(|_| !allowed.loops).map(|found| found.header);
        let avoided: BTreeSet<usize> = not_made.chain(not_entered).collect();
        if avoided.is_empty() {
            return combine(function, graph, &callees, &turns);
        }
        let graph = graph.avoiding(&avoided)?;
        let on_these_ways = callees
            .into_iter()
            .filter(|(at, _)| graph.callees.contains_key(at));
        combine(function, &graph, &on_these_ways.collect(), &turns)
    }
}

/// A function's limits from those of its callees.
fn combine(
    function: &Function,
    graph: &Graph,
    callees: &Callees,
    turns: &BTreeMap<usize, u64>,
) -> Result<Limits, String> {
    let frame = frame(function, graph)?;
    let deepest = callees
        .iter()
        .map(|(at, limits)| frame.at_calls[at] + limits.stack)
        .max();
    let below = callees.values().map(|limits| limits.below).max();
    let named = graph
        .edges
        .keys()
        .map(|&at| function.instructions[at].vector_registers());
    let by_callees = callees.values().map(|limits| limits.vector_registers.clone());
    Ok(Limits {
        stack: frame.deepest.max(deepest.unwrap_or(0)),
        below: frame.below.max(below.unwrap_or(0)),
        instructions: instructions(graph, callees, turns)?,
        outside: callees
            .values()
            .flat_map(|limits| limits.outside.clone())
            .collect(),
        vector_registers: named.chain(by_callees).flatten().collect(),
    })
}

fn instructions(graph: &Graph, callees: &Callees, turns: &BTreeMap<usize, u64>) -> Result<u64, String> {
    let of_callee = |at: &usize| callees.get(at).map_or(0, |limits| limits.instructions);
    let weights = graph.edges.keys().map(|at| Ok((*at, sum(1, of_callee(at))?)));
    let weights = weights.collect::<Result<_, String>>()?;
    let paths = Paths {
        edges: &graph.edges,
        weights: &weights,
        turns,
    };
    paths.longest()
}

fn of_outside(name: &str) -> Limits {
    Limits {
        stack: RETURN_ADDRESS,
        outside: BTreeSet::from([name.to_string()]),
        ..Limits::default()
    }
}
