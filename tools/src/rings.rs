//! A list of rings, from a text that has a line for each; and what is said if the library refuses it.

use drive_object::{owner, Refusal, RING_WORDS};

use crate::number::{grouped, of_digits};
use crate::refused;
use crate::text::{each_line, says_nothing};

/// The kinds of rings by the library's numbers, as a text has them.
const KINDS: [&str; 2] = ["ordinary", "key"];

/// The rings of a text, in order.
#[derive(Default)]
pub struct Rings {
    /// As the library takes them.
    pub words: Vec<u32>,
    /// The number of each ring's line.
    lines: Vec<usize>,
}

/// A ring as people see it: its kind, and its start and end in millimetres.
pub struct Ring {
    pub kind: &'static str,
    pub start: u64,
    pub end: u64,
}

impl Rings {
    /// The list of a text, or what is wrong with a line.
    pub fn of(source: &[u8]) -> Result<Rings, String> {
        let mut rings = Rings::default();
        each_line(source, |at, line| rings.take(at, line))?;
        Ok(rings)
    }

    fn take(&mut self, at: usize, line: &str) -> Result<(), String> {
        let words: Vec<&str> = line.split_whitespace().collect();
        match words.as_slice() {
            words if says_nothing(words) => Ok(()),
            [length, kind] => {
                self.words.extend([length_of(length)?, kind_of(kind)?]);
                self.lines.push(at);
                Ok(())
            }
            _ => Err("a line is 'LENGTH ordinary', 'LENGTH key', or '# comment'".into()),
        }
    }

    pub fn count(&self) -> usize {
        self.lines.len()
    }

    /// A ring by its number, from 1. It starts where the lengths before it add up to.
    pub fn ring(&self, number: usize) -> Option<Ring> {
        let before = number.checked_sub(1)?;
        let [length, kind] = *self.each().nth(before)? else {
            return None;
        };
        let start = self.each().take(before).map(|ring| u64::from(ring[0])).sum();
        Some(Ring {
            kind: KINDS.get(kind as usize)?,
            start,
            end: start + u64::from(length),
        })
    }

    fn each(&self) -> impl Iterator<Item = &[u32]> {
        self.words.chunks_exact(RING_WORDS)
    }

    /// The refusal of a call on the list, in words. A ring that the library refuses alone is named by its line.
    pub fn refused(&self, refusal: Refusal) -> String {
        let reason = refused::in_words(refusal);
        let list = format!("the list of {} rings is {reason}", self.count());
        if refusal != Refusal::Rings {
            return list;
        }
        match self.refused_alone() {
            Some((line, length)) => format!("line {line}: the ring of {length} millimetres is {reason}"),
            None => list,
        }
    }

    /// Line and length of the first ring that the library refuses in a list of its own.
    fn refused_alone(&self) -> Option<(usize, String)> {
        let mut rings = self.lines.iter().zip(self.each());
        let refused = rings.find(|(_, ring)| owner(ring, 0) == Err(Refusal::Rings));
        refused.map(|(line, ring)| (*line, grouped(u64::from(ring[0]))))
    }
}

fn length_of(word: &str) -> Result<u32, String> {
    of_digits(word).ok_or_else(|| {
        format!("{word} is no length: lengths are whole millimetres in digits alone, and fit in 32 bits")
    })
}

fn kind_of(word: &str) -> Result<u32, String> {
    let kind = (0..).zip(KINDS).find(|(_, kind)| *kind == word);
    let [ordinary, key] = KINDS;
    kind.map(|(number, _)| number)
        .ok_or_else(|| format!("{word} is no kind: a ring is {ordinary} or {key}"))
}
