//! How often the loops of a function turn at most. Turns are given for the loops as the archive has them; another number of
//! loops in a function, or loops that stand in each other otherwise, are refused.

use std::collections::BTreeMap;

use crate::paths::Loop;

#[derive(Clone, Copy)]
pub struct Turn {
    /// How many loops it stands in, itself counted.
    pub depth: usize,
    pub most: u64,
    /// What it takes one of in each turn.
    pub over: &'static str,
}

/// The turns of a function's loops, in the order of their headers.
pub type Turns<'a> = (&'a str, &'a [Turn]);

/// How often each header is run at most, by the header.
pub fn turns_of(given: &[Turns], function: &str, loops: &[Loop]) -> Result<BTreeMap<usize, u64>, String> {
    let found = given.iter().find(|(name, _)| *name == function);
    let turns = found.map_or(&[][..], |(_, turns)| turns);
    let depths: Vec<usize> = loops.iter().map(|found| found.depth).collect();
    let known: Vec<usize> = turns.iter().map(|turn| turn.depth).collect();
    if depths != known {
        return Err(format!(
            "it has loops of the depths {depths:?}, but limits are given for {known:?}"
        ));
    }
    Ok(loops
        .iter()
        .zip(turns)
        .map(|(found, turn)| (found.header, turn.most))
        .collect())
}
