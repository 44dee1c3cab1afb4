//! The ring desk: which ring owns a chainage, and the object table of the drive that builds the rings.

use crate::refusal::Refusal;
use crate::table_file::TableFile;

pub const MOST_RINGS: usize = 255;
pub const LONGEST_RING: u32 = 20_000;
/// A ring is two words of a list: its length in millimetres and its kind.
pub const RING_WORDS: usize = 2;
pub const ORDINARY: u32 = 0;
pub const KEY: u32 = 1;
/// The operations of the table: 0 reads, 1 builds, 2 takes out.
const OPERATIONS: u16 = 3;

/// A ring in its place; rings are numbered from 1.
struct Ring {
    number: usize,
    start: u64,
    end: u64,
    kind: u32,
}

impl Ring {
    /// An ordinary ring owns its start and not its end, a key ring both.
    fn owns(&self, chainage: u64) -> bool {
        match self.kind {
            KEY => (self.start..=self.end).contains(&chainage),
            _ => (self.start..self.end).contains(&chainage),
        }
    }
}

/// The number of the ring that owns a chainage; of two that own it, the lower number.
pub fn owner(rings: &[u32], chainage: u64) -> Result<u16, Refusal> {
    test_rings(rings)?;
    let lowest = owners(rings, chainage).into_iter().min();
    lowest.map(|number| number as u16).ok_or(Refusal::Chainage)
}

/// The table in which state k says that k rings are built.
pub fn ring_table(rings: &[u32]) -> Result<Vec<u8>, Refusal> {
    test_rings(rings)?;
    let last = (rings.len() / RING_WORDS) as u8;
    let entries: Vec<(u8, u8)> = (0..=last)
        .flat_map(|built| [built, one_more(built, last), one_less(built)].map(|next| (next, built)))
        .collect();
    Ok(TableFile::plain(u16::from(last) + 1, OPERATIONS, 0, &entries).to_bytes())
}

/// Writes the table to the beginning of the room; its length in bytes.
pub fn write_ring_table(rings: &[u32], room: &mut [u8]) -> Result<u32, Refusal> {
    let file = ring_table(rings)?;
    if room.len() < file.len() {
        return Err(Refusal::Room);
    }
    room[..file.len()].copy_from_slice(&file);
    Ok(file.len() as u32)
}

/// Tests 14, on the whole list.
fn test_rings(rings: &[u32]) -> Result<(), Refusal> {
    let no_word_left = rings.len() % RING_WORDS == 0;
    let count_fits = (1..=MOST_RINGS).contains(&(rings.len() / RING_WORDS));
    if no_word_left && count_fits && rings.chunks_exact(RING_WORDS).all(ring_fits) {
        Ok(())
    } else {
        Err(Refusal::Rings)
    }
}

fn ring_fits(ring: &[u32]) -> bool {
    let (length, kind) = (ring[0], ring[1]);
    (1..=LONGEST_RING).contains(&length) && [ORDINARY, KEY].contains(&kind)
}

/// Ring 1 begins at 0, and each ring at the end of the one before.
fn placed(rings: &[u32]) -> Vec<Ring> {
    let mut start = 0;
    let mut placed = Vec::new();
    for (number, ring) in (1..).zip(rings.chunks_exact(RING_WORDS)) {
        let (end, kind) = (start + u64::from(ring[0]), ring[1]);
        placed.push(Ring {
            number,
            start,
            end,
            kind,
        });
        start = end;
    }
    placed
}

/// The numbers of all rings that own a chainage.
fn owners(rings: &[u32], chainage: u64) -> Vec<usize> {
    let owning = placed(rings).into_iter().filter(|ring| ring.owns(chainage));
    owning.map(|ring| ring.number).collect()
}

/// Build; with the last ring built, it changes nothing.
fn one_more(built: u8, last: u8) -> u8 {
    match built == last {
        true => built,
        false => built + 1,
    }
}

/// Take out; with no ring built, it changes nothing.
fn one_less(built: u8) -> u8 {
    match built {
        0 => 0,
        _ => built - 1,
    }
}

#[cfg(test)]
mod tests {
    use super::*;
    use crate::desk_cases::{WRONG_KINDS, WRONG_LENGTHS};
    use crate::table::{Entry, Table};

    /// Three rings of 1,000, the second a key ring.
    const THREE: [u32; 6] = [1_000, ORDINARY, 1_000, KEY, 1_000, ORDINARY];

    /// Ordinary rings of length 1.
    fn of_count(count: usize) -> Vec<u32> {
        [1, ORDINARY].repeat(count)
    }

    /// The number of the refusal by each call, which must be the same, or 0.
    fn refused(rings: &[u32]) -> u8 {
        let by_owner = owner(rings, 0).map_or_else(Refusal::number, |_| 0);
        let by_table = ring_table(rings).map_or_else(Refusal::number, |_| 0);
        assert_eq!(by_owner, by_table);
        by_owner
    }

    #[test]
    fn the_lower_number_owns_the_end_of_a_key_ring() {
        let owned = [
            (0, 1),
            (999, 1),
            (1_000, 2),
            (1_999, 2),
            (2_000, 2),
            (2_001, 3),
            (2_999, 3),
        ];
        for (chainage, number) in owned {
            assert_eq!(owner(&THREE, chainage), Ok(number), "{chainage}");
        }
        for chainage in [3_000, 3_001, 1 << 32, (1 << 32) + 5, u64::MAX] {
            assert_eq!(owner(&THREE, chainage), Err(Refusal::Chainage));
        }
    }

    #[test]
    fn all_owners_are_found() {
        assert_eq!(owners(&THREE, 1_000), [2]);
        assert_eq!(owners(&THREE, 2_000), [2, 3]);
        assert!(owners(&THREE, 3_000).is_empty());
    }

    #[test]
    fn a_last_key_ring_owns_its_end() {
        let one = [5, KEY];
        assert_eq!([0, 4, 5].map(|chainage| owner(&one, chainage)), [Ok(1); 3]);
        assert_eq!(owner(&one, 6), Err(Refusal::Chainage));
        assert_eq!(owner(&[5, ORDINARY], 5), Err(Refusal::Chainage));
    }

    #[test]
    fn the_longest_list_ends_at_5100000() {
        let longest = [LONGEST_RING, ORDINARY].repeat(MOST_RINGS);
        assert_eq!(owner(&longest, 5_079_999), Ok(254));
        assert_eq!(owner(&longest, 5_080_000), Ok(255));
        assert_eq!(owner(&longest, 5_099_999), Ok(255));
        assert_eq!(owner(&longest, 5_100_000), Err(Refusal::Chainage));
    }

    #[test]
    fn lists_have_1_to_255_rings() {
        for (count, number) in [(0, 14), (1, 0), (255, 0), (256, 14), (257, 14), (65_537, 14)] {
            assert_eq!(refused(&of_count(count)), number, "{count} rings");
        }
    }

    #[test]
    fn a_list_with_a_word_left_is_refused() {
        for count in [0, 1, 2, 254, 255] {
            for word in [0, 1] {
                let mut rings = of_count(count);
                rings.push(word);
                assert_eq!(refused(&rings), 14, "{count} rings and {word}");
            }
        }
    }

    #[test]
    fn lengths_are_1_to_20000() {
        for length in [1, 20_000] {
            assert_eq!(refused(&[length, ORDINARY]), 0);
        }
        for length in WRONG_LENGTHS {
            assert_eq!(refused(&[length, ORDINARY]), 14, "{length}");
        }
    }

    #[test]
    fn kinds_are_0_and_1() {
        for kind in [0, 1] {
            assert_eq!(refused(&[1, kind]), 0);
        }
        for kind in WRONG_KINDS {
            assert_eq!(refused(&[1, kind]), 14, "{kind}");
        }
    }

    /// Also if the owner stands before the ring, and before 15 if there is no owner.
    #[test]
    fn every_ring_is_tested_before_an_owner_is_looked_for() {
        let lengths = WRONG_LENGTHS.map(|length| [length, KEY]);
        let kinds = WRONG_KINDS.map(|kind| [1, kind]);
        for wrong in lengths.into_iter().chain(kinds) {
            for place in [0, 1, 253, 254] {
                let mut rings = of_count(MOST_RINGS);
                rings[RING_WORDS * place..][..RING_WORDS].copy_from_slice(&wrong);
                for chainage in [0, 1, 254, 255, u64::MAX] {
                    assert_eq!(owner(&rings, chainage), Err(Refusal::Rings));
                }
                assert_eq!(ring_table(&rings), Err(Refusal::Rings));
            }
        }
    }

    #[test]
    fn the_table_of_one_ring_is_the_flag() {
        for kind in [ORDINARY, KEY] {
            assert_eq!(ring_table(&[7, kind]), Ok(TableFile::flag().to_bytes()));
        }
    }

    #[test]
    fn the_table_depends_on_the_count_alone() {
        assert_eq!(ring_table(&THREE), ring_table(&of_count(3)));
    }

    #[test]
    fn tables_of_all_counts_have_the_entries_as_stated() {
        for count in 1..=MOST_RINGS {
            let file = ring_table(&of_count(count)).unwrap();
            assert_eq!(file.len(), 6 * count + 22);
            let table = Table::check(&file).unwrap();
            let shape = (table.states, table.operations, table.start);
            assert_eq!(shape, (count + 1, 3, 0));
            for built in 0..=count {
                let next = [0, 1, 2].map(|operation| table.entry(built, operation));
                let stated = [built, (built + 1).min(count), built.saturating_sub(1)];
                let response = built as u16;
                assert_eq!(
                    next,
                    stated.map(|next| Entry {
                        next: next as u16,
                        response
                    })
                );
            }
        }
    }

    #[test]
    fn the_first_bytes_of_the_room_are_the_table_and_the_rest_is_as_it_was() {
        for count in [1, 2, 254, 255] {
            let rings = of_count(count);
            let file = ring_table(&rings).unwrap();
            for more in [0, 1, 100] {
                let mut room = vec![0xa5; file.len() + more];
                assert_eq!(write_ring_table(&rings, &mut room), Ok(file.len() as u32));
                assert_eq!(room, [file.as_slice(), &vec![0xa5; more]].concat());
            }
        }
    }

    #[test]
    fn a_room_that_is_too_short_is_left_as_it_was() {
        for count in [1, 2, 254, 255] {
            let length = ring_table(&of_count(count)).unwrap().len();
            for length in [0, 1, length - 1] {
                let mut room = vec![0xa5; length];
                let refused = write_ring_table(&of_count(count), &mut room);
                assert_eq!((refused, room), (Err(Refusal::Room), vec![0xa5; length]));
            }
        }
    }

    #[test]
    fn the_room_is_tested_after_the_rings() {
        for rings in [vec![], vec![0, 0], vec![1, 2], vec![1, 0, 1], of_count(256)] {
            for length in [0, 28, 2_000] {
                let mut room = vec![0xa5; length];
                let refused = write_ring_table(&rings, &mut room);
                assert_eq!((refused, room), (Err(Refusal::Rings), vec![0xa5; length]));
            }
        }
    }
}
