//! The greatest count of instructions on any way through a function, its loops turned as often as a limit allows.

use std::collections::{BTreeMap, BTreeSet};

use crate::components::{components, is_cycle};
use crate::graph::{predecessors, Edges};

/// Where a loop is entered, and how many loops it stands in, itself counted.
#[derive(Clone, Copy, Debug, PartialEq, Eq, PartialOrd, Ord)]
pub struct Loop {
    pub header: usize,
    pub depth: usize,
}

/// The greatest count from the entry up to and with each instruction.
type Counts = BTreeMap<usize, u64>;

pub struct Paths<'a> {
    /// Of the whole function.
    pub edges: &'a Edges,
    /// What one run of each instruction counts.
    pub weights: &'a BTreeMap<usize, u64>,
    /// How often a loop's header is run at most, each time that the loop is entered.
    pub turns: &'a BTreeMap<usize, u64>,
}

/// The loops of a function, by the place of their headers. Those that no limit of turns can count are refused.
pub fn loops(edges: &Edges) -> Result<Vec<Loop>, String> {
    let mut found = Vec::new();
    loops_within(edges, edges, 0, 0, &mut found)?;
    found.sort();
    Ok(found)
}

fn loops_within(
    all: &Edges,
    region: &Edges,
    entry: usize,
    depth: usize,
    found: &mut Vec<Loop>,
) -> Result<(), String> {
    for part in components(region) {
        if !is_cycle(region, &part) {
            continue;
        }
        let header = header(region, entry, &part)?;
        let depth = depth + 1;
        found.push(Loop { header, depth });
        test_at_end(all, header, &part)?;
        loops_within(all, &one_turn(region, header, &part), header, depth, found)?;
    }
    Ok(())
}

/// A loop that tests at its end runs its header once a turn. One that tests at its start would run it once more.
fn test_at_end(all: &Edges, header: usize, part: &BTreeSet<usize>) -> Result<(), String> {
    let goes_on = |at: &&usize| all[*at].contains(&header);
    let leaves = |at: &usize| all[at].iter().any(|next| !part.contains(next));
    match part.iter().filter(goes_on).all(leaves) {
        true => Ok(()),
        false => Err("a loop goes on without a test at its end".to_string()),
    }
}

impl Paths<'_> {
    /// The greatest count from the first instruction to any that ends the function.
    pub fn longest(&self) -> Result<u64, String> {
        let counts = self.counts(self.edges, 0)?;
        let ends = counts.iter().filter(|(at, _)| self.edges[at].is_empty());
        ends.map(|(_, &count)| count)
            .max()
            .ok_or_else(|| "no way leads to an end".to_string())
    }

    fn counts(&self, region: &Edges, entry: usize) -> Result<Counts, String> {
        let before = predecessors(region);
        let mut counts = Counts::new();
        for part in components(region) {
            let is_loop = is_cycle(region, &part);
            let first = if is_loop {
                header(region, entry, &part)?
            } else {
                only(&part)
            };
            let ways = before
                .get(&first)
                .into_iter()
                .flatten()
                .filter(|at| !part.contains(at));
            let until = ways.map(|at| counts[at]).max().unwrap_or(0);
            match is_loop {
                true => counts.extend(self.counts_of_loop(region, first, &part, until)?),
                false => {
                    counts.insert(first, sum(until, self.weights[&first])?);
                }
            }
        }
        Ok(counts)
    }

    /// Every turn but the last is a longest one; it goes on, as each instruction of a loop leads back to the header. The
    /// last goes wherever it leaves.
    fn counts_of_loop(
        &self,
        region: &Edges,
        header: usize,
        part: &BTreeSet<usize>,
        until: u64,
    ) -> Result<Counts, String> {
        let turn = self.counts(&one_turn(region, header, part), header)?;
        let longest = turn.values().max().copied().unwrap_or(0);
        let turns = self.turns.get(&header).ok_or("a loop has no limit of turns")?;
        let whole = turns.saturating_sub(1).checked_mul(longest).ok_or(TOO_MANY)?;
        let before_last = sum(until, whole)?;
        turn.into_iter()
            .map(|(at, count)| Ok((at, sum(before_last, count)?)))
            .collect()
    }
}

const TOO_MANY: &str = "it counts more instructions than 64 bits hold";

pub fn sum(one: u64, other: u64) -> Result<u64, String> {
    one.checked_add(other).ok_or_else(|| TOO_MANY.to_string())
}

fn only(part: &BTreeSet<usize>) -> usize {
    part.first().copied().unwrap_or(0)
}

/// The one instruction by which a loop is entered.
fn header(region: &Edges, entry: usize, part: &BTreeSet<usize>) -> Result<usize, String> {
    let outside = region.iter().filter(|(at, _)| !part.contains(at));
    let mut entered: BTreeSet<usize> = outside.flat_map(|(_, after)| after).copied().collect();
    entered.insert(entry);
    let mut headers = entered.intersection(part);
    match (headers.next(), headers.next()) {
        (Some(&header), None) => Ok(header),
        _ => Err("a loop is entered at more than one place".to_string()),
    }
}

/// A loop's instructions, without the ways back to its header.
fn one_turn(region: &Edges, header: usize, part: &BTreeSet<usize>) -> Edges {
    let kept = |next: &&usize| part.contains(next) && **next != header;
    let turn = part
        .iter()
        .map(|at| (*at, region[at].iter().filter(kept).copied().collect()));
    turn.collect()
}
