//! Functions that call themselves or each other, and how deep. A cycle is given with all of its members; one that is not
//! given, or has other members, is refused, and so is a given one that the archive does not have.

use std::collections::BTreeSet;

/// What is left falls where a member calls a member. With nothing left a member enters no loop and calls no member.
#[derive(Clone, Copy)]
pub struct Cycle<'a> {
    pub members: &'a [&'a str],
    /// What is left at most where another function calls a member.
    pub most: usize,
    /// By how much it falls at least. Where less is left, no member is called.
    pub fall: usize,
    /// What is left.
    pub over: &'a str,
}

impl Cycle<'_> {
    fn has(&self, members: &BTreeSet<&str>) -> bool {
        self.members.iter().copied().collect::<BTreeSet<&str>>() == *members
    }
}

/// What is given for a cycle that was found.
pub fn cycle_of<'a>(given: &'a [Cycle], found: &BTreeSet<&str>) -> Result<&'a Cycle<'a>, String> {
    match given.iter().find(|cycle| cycle.has(found)) {
        Some(cycle) if cycle.fall > 0 => Ok(cycle),
        Some(_) => Err(format!(
            "what is left does not fall in the cycle of {}",
            joined(found)
        )),
        None => Err(format!("no depth is given for the cycle of {}", joined(found))),
    }
}

/// Refuses a given cycle that was not found.
pub fn test_found(given: &[Cycle], found: &[BTreeSet<&str>]) -> Result<(), String> {
    let is_missing = |cycle: &&Cycle| !found.iter().any(|members| cycle.has(members));
    match given.iter().find(is_missing) {
        Some(cycle) => Err(format!(
            "a depth is given for the cycle of {}, which the archive does not have",
            cycle.members.join(", ")
        )),
        None => Ok(()),
    }
}

fn joined(names: &BTreeSet<&str>) -> String {
    names.iter().copied().collect::<Vec<_>>().join(", ")
}
