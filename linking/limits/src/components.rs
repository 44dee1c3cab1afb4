//! The parts of a graph whose members reach each other, by Tarjan's search.

use std::collections::{BTreeMap, BTreeSet};

use crate::graph::Edges;

/// The parts, each before those that it leads to. Members have no order.
pub fn components(edges: &Edges) -> Vec<BTreeSet<usize>> {
    let mut search = Search {
        edges,
        place: BTreeMap::new(),
        open: Vec::new(),
        found: Vec::new(),
    };
    for &node in edges.keys() {
        if !search.place.contains_key(&node) {
            search.visit(node);
        }
    }
    search.found.reverse();
    search.found
}

/// Whether a way leads from a part back to it; if it has one member alone, there may be none.
pub fn is_cycle(edges: &Edges, part: &BTreeSet<usize>) -> bool {
    let leads_back = |at: &usize| edges[at].iter().any(|next| part.contains(next));
    part.iter().any(leads_back)
}

struct Search<'a> {
    edges: &'a Edges,
    /// In the order of the first visits.
    place: BTreeMap<usize, usize>,
    /// Visited nodes whose part is not complete.
    open: Vec<usize>,
    found: Vec<BTreeSet<usize>>,
}

impl Search<'_> {
    /// The lowest place of an open node that is reached.
    fn visit(&mut self, node: usize) -> usize {
        let place = self.place.len();
        self.place.insert(node, place);
        let height = self.open.len();
        self.open.push(node);
        let mut lowest = place;
        for &next in &self.edges[&node] {
            let reached = match self.place.get(&next) {
                None => self.visit(next),
                Some(&known) if self.open.contains(&next) => known,
                Some(_) => continue,
            };
            lowest = lowest.min(reached);
        }
        if lowest == place {
            self.found.push(self.open.drain(height..).collect());
        }
        lowest
    }
}
