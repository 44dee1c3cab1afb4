//! Which functions call themselves or each other.

use std::collections::BTreeSet;

use crate::components::{components, is_cycle};
use crate::graph::{Edges, Graph};
use crate::listing::{Callee, Listing};

/// Functions by their places in the listing: those of a cycle, each of which calls leads to from each; else one alone.
pub struct Group {
    pub members: BTreeSet<usize>,
    pub is_cycle: bool,
}

/// The groups of all functions, each after those that its members call.
pub fn groups(listing: &Listing, graphs: &[Graph]) -> Vec<Group> {
    let edges: Edges = graphs
        .iter()
        .map(|graph| called(listing, graph))
        .enumerate()
        .collect();
    let parts = components(&edges).into_iter().rev();
    let group = |members| Group {
        is_cycle: is_cycle(&edges, &members),
        members,
    };
    parts.map(group).collect()
}

/// The functions of the archive that one calls.
fn called(listing: &Listing, graph: &Graph) -> Vec<usize> {
    let place = |name: &String| {
        listing
            .functions
            .iter()
            .position(|function| function.name == *name)
    };
    let inside = graph.callees.values().filter_map(|callee| match callee {
        Callee::Inside(name) => place(name),
        Callee::Outside(_) => None,
    });
    inside.collect()
}
