//! The instructions of a function that can be reached, each with those that can follow it.

use std::collections::{BTreeMap, BTreeSet};

use crate::instruction::Flow;
use crate::jump_tables::{table_jump, TableJump};
use crate::listing::{Callee, Function, Listing};

/// The instructions that can follow each one, by their indices in the function.
pub type Edges = BTreeMap<usize, Vec<usize>>;

pub struct Graph {
    pub edges: Edges,
    /// The functions that instructions call, or jump to at their end.
    pub callees: BTreeMap<usize, Callee>,
}

/// What can follow one instruction, and whom it calls.
#[derive(Default)]
struct Ways {
    after: Vec<usize>,
    callee: Option<Callee>,
}

impl Graph {
    pub fn of(listing: &Listing, function: &Function) -> Result<Graph, String> {
        let mut graph = Graph {
            edges: Edges::new(),
            callees: BTreeMap::new(),
        };
        let mut tables = BTreeMap::new();
        let mut ahead = vec![0];
        while let Some(at) = ahead.pop() {
            if graph.edges.contains_key(&at) {
                continue;
            }
            let ways = ways(listing, function, at, &mut tables)?;
            ahead.extend(&ways.after);
            graph.edges.insert(at, ways.after);
            graph.callees.extend(ways.callee.map(|callee| (at, callee)));
        }
        graph.test_tables(function, &tables)?;
        Ok(graph)
    }

    /// The ways from the first instruction to an end that come to none of some instructions.
    pub fn avoiding(&self, avoided: &BTreeSet<usize>) -> Result<Graph, String> {
        let ends = self.edges.iter().filter(|(_, after)| after.is_empty());
        let ends = ends.map(|(&at, _)| at).collect();
        let from_first = reached(&self.edges, vec![0], avoided);
        let to_end = reached(&predecessors(&self.edges), ends, avoided);
        let kept: BTreeSet<usize> = from_first.intersection(&to_end).copied().collect();
        if !kept.contains(&0) {
            return Err("with too little left no way leads to an end".to_string());
        }
        let after = |at: &usize| self.edges[at].iter().copied();
        let ways = |at: &usize| after(at).filter(|next| kept.contains(next)).collect();
        let callees = self.callees.iter().filter(|(at, _)| kept.contains(at));
        Ok(Graph {
            edges: kept.iter().map(|at| (*at, ways(at))).collect(),
            callees: callees.map(|(at, callee)| (*at, callee.clone())).collect(),
        })
    }

    /// Whether control comes to each instruction of a table's jump, behind the first, only from the one before it.
    fn test_tables(&self, function: &Function, tables: &BTreeMap<usize, TableJump>) -> Result<(), String> {
        let before = predecessors(&self.edges);
        for (&jump, table) in tables {
            let straight = (table.first + 1..=jump).all(|at| before.get(&at) == Some(&vec![at - 1]));
            if !straight {
                return Err(function.instructions[jump].refused("has a table that may be another"));
            }
        }
        Ok(())
    }
}

pub fn predecessors(edges: &Edges) -> Edges {
    let mut before = Edges::new();
    for (&at, after) in edges {
        for &next in after {
            before.entry(next).or_default().push(at);
        }
    }
    before
}

/// The instructions that edges lead to from some, these counted, on ways that come to none of the avoided.
fn reached(edges: &Edges, from: Vec<usize>, avoided: &BTreeSet<usize>) -> BTreeSet<usize> {
    let mut reached = BTreeSet::new();
    let mut ahead = from;
    while let Some(at) = ahead.pop() {
        if !avoided.contains(&at) && reached.insert(at) {
            ahead.extend(edges.get(&at).into_iter().flatten());
        }
    }
    reached
}

fn ways(
    listing: &Listing,
    function: &Function,
    at: usize,
    tables: &mut BTreeMap<usize, TableJump>,
) -> Result<Ways, String> {
    let instruction = function.instructions.get(at).ok_or("control runs past the end")?;
    let here = instruction.target().and_then(|target| function.index_of(target));
    let here = here.filter(|_| instruction.relocation.is_none());
    let on = |after| Ways { after, callee: None };
    let callee = |after| {
        listing.callee(function, instruction).map(|callee| Ways {
            after,
            callee: Some(callee),
        })
    };
    match (instruction.flow()?, here) {
        (Flow::On, _) => Ok(on(vec![at + 1])),
        (Flow::Return | Flow::Never, _) => Ok(Ways::default()),
        (Flow::Jump, Some(target)) => Ok(on(vec![target])),
        (Flow::Jump, None) => callee(Vec::new()),
        (Flow::Branch, Some(target)) => Ok(on(vec![at + 1, target])),
        (Flow::Branch, None) => Err(instruction.refused("leads out of its function")),
        (Flow::Call, _) => callee(vec![at + 1]),
        (Flow::JumpByTable, _) => {
            let jump = table_jump(listing, function, at)?;
            let mut after = jump.targets.clone();
            after.sort_unstable();
            after.dedup();
            tables.insert(at, jump);
            Ok(on(after))
        }
    }
}
