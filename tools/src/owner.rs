//! `drive owner`: which ring owns a chainage.

use drive_object::{owner, Refusal};

use crate::number::{grouped, of_digits};
use crate::refused;
use crate::rings::Rings;

/// The chainage that a word stands for.
pub fn chainage_of(word: &str) -> Result<u64, String> {
    let last = u64::MAX;
    of_digits(word).ok_or_else(|| {
        format!("'{word}' is no chainage: chainages are whole millimetres in digits alone, from 0 to {last}")
    })
}

/// The library's answer in a line, with the kind, the start and the end that the list gives that ring.
pub fn report(source: &[u8], chainage: u64) -> Result<String, String> {
    let rings = Rings::of(source)?;
    let number = owner(&rings.words, chainage).map_err(|refusal| refused(&rings, chainage, refusal))?;
    let count = rings.count();
    let ring = rings
        .ring(usize::from(number))
        .ok_or_else(|| format!("the library names ring {number} of a list of {count} rings"))?;
    let [chainage, start, end] = [chainage, ring.start, ring.end].map(grouped);
    let kind = ring.kind;
    Ok(format!(
        "ring {number} owns chainage {chainage}: {kind}, from {start} to {end} millimetres\n"
    ))
}

fn refused(rings: &Rings, chainage: u64, refusal: Refusal) -> String {
    match (refusal, rings.ring(rings.count())) {
        (Refusal::Chainage, Some(last)) => {
            let (reason, kind) = (refused::in_words(refusal), last.kind);
            let [chainage, end] = [chainage, last.end].map(grouped);
            format!("chainage {chainage} is {reason}; the last ring, {kind}, ends at {end} millimetres")
        }
        _ => rings.refused(refusal),
    }
}
