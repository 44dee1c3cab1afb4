//! Jumps through a table: `lea TABLE(%rip),%b`, `movslq (%b,%i,4),%t`, `add %b,%t`, `jmp *%t`, with others between. Each
//! entry of the table has four bytes: its target, less the table's place.

use std::collections::BTreeSet;

use crate::listing::{Function, Listing};
use crate::operand::{register, Memory, Place};

const ENTRY: u64 = 4;

/// A jump through a table: the instruction that takes the table's address, and the targets as indices.
pub struct TableJump {
    pub first: usize,
    pub targets: Vec<usize>,
}

/// Reads the table of the jump at an index. That its address is still the table's rests on nothing leading in between
/// `first` and the jump, which the caller tests.
pub fn table_jump(listing: &Listing, function: &Function, jump: usize) -> Result<TableJump, String> {
    let refused = || function.instructions[jump].refused("has a table that is not found");
    let first = address_of_table(function, jump).ok_or_else(refused)?;
    let table = function.instructions[first]
        .relocation
        .as_ref()
        .ok_or_else(refused)?;
    let targets = entries(listing, function, table).ok_or_else(refused)?;
    match targets.is_empty() {
        true => Err(refused()),
        false => Ok(TableJump { first, targets }),
    }
}

/// The instruction that takes the table's address, by which the jump's register was made.
fn address_of_table(function: &Function, jump: usize) -> Option<usize> {
    let target = register(&function.instructions[jump].operand(0)[1..])?;
    let adding = last_writer(function, jump, &target)?;
    let sum = &function.instructions[adding];
    let base = register(sum.operand(0)).filter(|_| sum.mnemonic == "add")?;
    let loading = last_writer(function, adding, &target)?;
    let entry = &function.instructions[loading];
    let memory = Memory::parse(entry.operand(0)).filter(|_| entry.mnemonic == "movslq")?;
    let taking = last_writer(function, loading, &base)?;
    let kept = last_writer(function, adding, &base) == Some(taking);
    let taken = function.instructions[taking].mnemonic == "lea";
    (kept && taken && memory.base == base && memory.displacement == 0).then_some(taking)
}

fn last_writer(function: &Function, before: usize, register: &str) -> Option<usize> {
    (0..before)
        .rev()
        .find(|&at| function.instructions[at].writes(register))
}

/// The entries from the table's place to the next place that code takes, or to where no place is held.
fn entries(listing: &Listing, function: &Function, table: &Place) -> Option<Vec<usize>> {
    let places = listing.data.get(&table.name)?;
    let start = u64::try_from(table.offset).ok()?;
    let others = places_taken(listing, &table.name);
    let mut targets = Vec::new();
    for at in (start..).step_by(ENTRY as usize) {
        let Some(place) = places.get(&at).filter(|_| at == start || !others.contains(&at)) else {
            break;
        };
        let address = place.offset - (at - start) as i64;
        let here = place.name == function.section || place.name == function.name;
        let target = u64::try_from(address).ok().filter(|_| here)?;
        targets.push(function.index_of(target)?);
    }
    Some(targets)
}

/// The places of a data section that code takes.
fn places_taken(listing: &Listing, section: &str) -> BTreeSet<u64> {
    let instructions = listing
        .functions
        .iter()
        .flat_map(|function| &function.instructions);
    let relocations = instructions.filter_map(|instruction| instruction.relocation.as_ref());
    let here = relocations.filter(|place| place.name == section);
    here.filter_map(|place| u64::try_from(place.offset).ok())
        .collect()
}
