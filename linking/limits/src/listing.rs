//! What objdump prints of the archive, taken apart: the functions with their instructions, and the places that sections
//! hold.

use std::collections::BTreeMap;

use crate::instruction::Instruction;
use crate::operand::Place;

#[derive(Debug)]
pub struct Function {
    pub name: String,
    pub section: String,
    pub instructions: Vec<Instruction>,
}

/// The places that a section holds, by their offset.
pub type Places = BTreeMap<u64, Place>;

#[derive(Debug, Default)]
pub struct Listing {
    pub functions: Vec<Function>,
    /// By the section's name.
    pub data: BTreeMap<String, Places>,
}

/// Who is called or jumped to.
#[derive(Clone, Debug, PartialEq, Eq)]
pub enum Callee {
    Inside(String),
    /// A function that the archive does not hold.
    Outside(String),
}

/// Bytes of a displacement, which a relocation counts from its first and an instruction from behind it.
const DISPLACEMENT: i64 = 4;

impl Function {
    pub fn index_of(&self, address: u64) -> Option<usize> {
        self.instructions
            .binary_search_by_key(&address, |instruction| instruction.address)
            .ok()
    }

    fn start(&self) -> Option<u64> {
        self.instructions.first().map(|first| first.address)
    }
}

impl Listing {
    /// From what `objdump -d -r --no-show-raw-insn` and `objdump -r` print.
    pub fn parse(disassembly: &str, relocations: &str) -> Result<Listing, String> {
        if disassembly.matches("file format ").count() > 1 {
            return Err("the archive has more than one file".to_string());
        }
        let mut listing = Listing::default();
        let mut section = String::new();
        for line in disassembly.lines() {
            if let Some(name) = line.strip_prefix("Disassembly of section ") {
                section = name.trim_end_matches(':').to_string();
            } else if let Some(name) = heading(line) {
                listing.open(name, &section)?;
            } else if !is_title(line) {
                listing.add(line)?;
            }
        }
        listing.add_data(relocations)?;
        Ok(listing)
    }

    pub fn function(&self, name: &str) -> Option<&Function> {
        self.functions.iter().find(|function| function.name == name)
    }

    /// The function that a relocation or, without one, an address of the caller's section names.
    pub fn callee(&self, caller: &Function, at: &Instruction) -> Result<Callee, String> {
        let unknown = || at.refused("leads to no known function");
        let inside = |function: &Function| Callee::Inside(function.name.clone());
        let Some(place) = &at.relocation else {
            let target = at.target().ok_or_else(unknown)?;
            let found = self.starting_at(&caller.section, target);
            return found.map(inside).ok_or_else(unknown);
        };
        let known = self.function(&place.name);
        let by_section = || self.starting_at(&place.name, u64::try_from(place.offset).ok()?);
        match known.filter(|_| place.offset == 0).or_else(by_section) {
            Some(function) => Ok(inside(function)),
            None if place.offset == 0 && !place.name.starts_with('.') => {
                Ok(Callee::Outside(place.name.clone()))
            }
            None => Err(unknown()),
        }
    }

    fn starting_at(&self, section: &str, address: u64) -> Option<&Function> {
        let here = |function: &&Function| function.section == section && function.start() == Some(address);
        self.functions.iter().find(here)
    }

    fn open(&mut self, name: &str, section: &str) -> Result<(), String> {
        if self.function(name).is_some() {
            return Err(format!("two functions have the name {name}"));
        }
        self.functions.push(Function {
            name: name.to_string(),
            section: section.to_string(),
            instructions: Vec::new(),
        });
        Ok(())
    }

    /// A line of an instruction, or of the relocation behind it.
    fn add(&mut self, line: &str) -> Result<(), String> {
        let unknown = || format!("objdump prints a line of no known form: {line}");
        let function = self.functions.last_mut().ok_or_else(unknown)?;
        let (address, rest) = line.split_once(':').ok_or_else(unknown)?;
        let address = u64::from_str_radix(address.trim(), 16).map_err(|_| unknown())?;
        let rest = rest.trim();
        if !rest.starts_with("R_X86_64_") {
            function.instructions.push(Instruction::parse(address, rest));
            return Ok(());
        }
        let instruction = function.instructions.last_mut().ok_or_else(unknown)?;
        let place = rest.split_whitespace().nth(1).ok_or_else(unknown)?;
        let place = Place::parse(place);
        let offset = place.offset + DISPLACEMENT;
        let relocation = Place { offset, ..place };
        match instruction.relocation.replace(relocation) {
            None => Ok(()),
            Some(_) => Err(instruction.refused("has two relocations")),
        }
    }

    /// The places that sections hold, by their relocations.
    fn add_data(&mut self, relocations: &str) -> Result<(), String> {
        let mut section = String::new();
        for line in relocations.lines() {
            if let Some(name) = line.strip_prefix("RELOCATION RECORDS FOR [") {
                section = name.trim_end_matches("]:").to_string();
                continue;
            }
            let words: Vec<&str> = line.split_whitespace().collect();
            let [offset, "R_X86_64_PC32", place] = words[..] else {
                continue;
            };
            let offset = u64::from_str_radix(offset, 16).map_err(|error| format!("{line}: {error}"))?;
            let places = self.data.entry(section.clone()).or_default();
            places.insert(offset, Place::parse(place));
        }
        Ok(())
    }
}

/// The name in a line such as `0000000000000000 <drive_begin>:`.
fn heading(line: &str) -> Option<&str> {
    let (address, name) = line.split_once(" <")?;
    u64::from_str_radix(address, 16).ok()?;
    name.strip_suffix(">:")
}

/// A line about the archive or a file in it, or an empty one.
fn is_title(line: &str) -> bool {
    line.is_empty() || line.starts_with("In archive ") || line.contains("file format ")
}
