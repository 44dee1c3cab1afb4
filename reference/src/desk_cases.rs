//! Lists of rings for the comparison of the desk, with the chainages to ask for and the rooms to lend: fixed ones, small,
//! of every number of rings or at a limit, and generated ones, some of them damaged.

use crate::desk::{KEY, ORDINARY, RING_WORDS};
use crate::random::Random;

/// A list of rings, in range or not.
pub struct Case {
    pub name: String,
    pub rings: Vec<u32>,
    pub chainages: Vec<u64>,
    /// The lengths in bytes of rooms for the list's table: none, one byte too short, just enough, and more.
    pub rooms: Vec<usize>,
}

/// Words that are no length; of some the low 8 or 16 bits are one.
pub const WRONG_LENGTHS: [u32; 9] = [
    0,
    20_001,
    65_535,
    65_536,
    65_537,
    85_536,
    1 << 31,
    1 << 31 | 1,
    u32::MAX,
];

/// Words that are no kind; of some the low 8 or 16 bits are one.
pub const WRONG_KINDS: [u32; 10] = [
    2,
    3,
    255,
    256,
    257,
    65_536,
    65_537,
    1 << 31,
    1 << 31 | 1,
    u32::MAX,
];

/// Every list is asked for these too. Most lists end before them, and of most the low bits are 0.
const FAR_CHAINAGES: [u64; 6] = [1 << 16, 1 << 31, 1 << 32, (1 << 32) + 1, 1 << 63, u64::MAX];

/// How many lists are generated.
pub const RANDOM_CASES: u64 = 10_000;
/// A generated list of up to so many rings is asked for all its joints, a longer one for some.
const MOST_RINGS_WITH_ALL_JOINTS: usize = 12;
const JOINTS_OF_LONG_LIST: usize = 8;
const RANDOM_CHAINAGES: usize = 4;

/// The fixed lists, then the generated ones.
pub fn cases() -> impl Iterator<Item = Case> {
    fixed_cases()
        .into_iter()
        .chain((0..RANDOM_CASES).map(random_case))
}

/// Small lists, lists of every number of rings and the longest ones, each with all its joints; then lists with a number of
/// rings or a word at a limit or past it.
pub fn fixed_cases() -> Vec<Case> {
    let mut cases = Vec::new();
    add_small_lists(&mut cases);
    add_every_count(&mut cases);
    add_longest_lists(&mut cases);
    add_limits_of_counts(&mut cases);
    add_limits_of_words(&mut cases);
    cases
}

/// A case with all its joints.
fn with_all_joints(name: String, rings: Vec<u32>) -> Case {
    let joints = joints(&rings);
    case(name, rings, &joints)
}

/// A case that is asked for its beginning, for the given joints and its end, each with the chainages just before and after,
/// and for far chainages.
fn case(name: String, rings: Vec<u32>, joints: &[u64]) -> Case {
    let mut chainages = vec![0, 1];
    for joint in joints.iter().copied().chain([end(&rings)]) {
        chainages.extend([joint.saturating_sub(1), joint, joint + 1]);
    }
    chainages.extend(FAR_CHAINAGES);
    let length = 6 * (rings.len() / RING_WORDS) + 22;
    Case {
        name,
        rings,
        chainages,
        rooms: vec![0, length - 1, length, length + 1, length + 100],
    }
}

/// The end of each ring but the last, where the next one begins.
fn joints(rings: &[u32]) -> Vec<u64> {
    let mut ends = ends(rings);
    ends.pop();
    ends
}

/// The end of the last ring; 0 without a ring.
fn end(rings: &[u32]) -> u64 {
    ends(rings).last().copied().unwrap_or(0)
}

fn ends(rings: &[u32]) -> Vec<u64> {
    let mut end = 0;
    let lengths = rings.chunks_exact(RING_WORDS).map(|ring| u64::from(ring[0]));
    lengths
        .map(|length| {
            end += length;
            end
        })
        .collect()
}

/// Every list of one to three rings of length 1 to 3: they are so short that every chainage is asked for.
fn add_small_lists(cases: &mut Vec<Case>) {
    let single = [1, 2, 3].map(|length| [ORDINARY, KEY].map(|kind| vec![length, kind]));
    let single = single.concat();
    let one_longer = |lists: &[Vec<u32>]| -> Vec<Vec<u32>> {
        lists
            .iter()
            .flat_map(|list| single.iter().map(move |ring| [list.as_slice(), ring].concat()))
            .collect()
    };
    let two = one_longer(&single);
    let three = one_longer(&two);
    for rings in [single.clone(), two, three].concat() {
        cases.push(with_all_joints(format!("small list {rings:?}"), rings));
    }
}

/// Every number of rings that is allowed, of any kinds.
fn add_every_count(cases: &mut Vec<Case>) {
    let mut random = Random::new(1);
    for count in 1..=255 {
        let rings = rings_of(count, 9, 2, &mut random);
        cases.push(with_all_joints(format!("{count} rings"), rings));
    }
}

/// The longest lists and those that are shorter by a millimetre.
fn add_longest_lists(cases: &mut Vec<Case>) {
    for kind in [ORDINARY, KEY] {
        let mut rings = [20_000, kind].repeat(255);
        cases.push(with_all_joints(
            format!("longest list, kind {kind}"),
            rings.clone(),
        ));
        rings[0] = 19_999;
        cases.push(with_all_joints(format!("nearly longest, kind {kind}"), rings));
    }
}

/// Numbers of rings about the limits, and some whose low 8 or 16 bits are in range; each with and without a word left.
fn add_limits_of_counts(cases: &mut Vec<Case>) {
    for count in [
        0, 1, 2, 254, 255, 256, 257, 258, 511, 512, 513, 65_535, 65_536, 65_537,
    ] {
        for left in [None, Some(0), Some(1)] {
            let mut rings = [1, ORDINARY].repeat(count);
            rings.extend(left);
            cases.push(case(
                format!("{count} rings, left {left:?}"),
                rings,
                &[1, 2, 253, 254],
            ));
        }
    }
}

/// Each limit of length and kind, and each wrong word, in the first ring, the last and one between.
fn add_limits_of_words(cases: &mut Vec<Case>) {
    let lengths = [1, 2, 19_999, 20_000].into_iter().chain(WRONG_LENGTHS);
    let kinds = [ORDINARY, KEY].into_iter().chain(WRONG_KINDS);
    let words = lengths
        .map(|length| (0, length))
        .chain(kinds.map(|kind| (1, kind)));
    for (field, word) in words {
        for count in [1, 2, 3, 254, 255] {
            for ring in [0, count / 2, count - 1] {
                let mut rings = [3, KEY].repeat(count);
                rings[RING_WORDS * ring + field] = word;
                let name = format!("{count} rings, word {field} of ring {} is {word}", ring + 1);
                cases.push(case(name, rings, &[3, 6]));
            }
        }
    }
}

/// A generated case; the seed alone decides it. Half of the lists are damaged: a word is wrong, left or lost.
pub fn random_case(seed: u64) -> Case {
    let mut random = Random::new(seed);
    let mut rings = random_rings(&mut random);
    let damage = match random.below(8) {
        0 => wrong_word(&mut rings, 0, &WRONG_LENGTHS, &mut random),
        1 => wrong_word(&mut rings, 1, &WRONG_KINDS, &mut random),
        2 => word_left(&mut rings, &mut random),
        3 => word_lost(&mut rings),
        _ => "not damaged",
    };
    let joints = some_joints(&rings, &mut random);
    let mut case = case(format!("seed {seed} ({damage})"), rings, &joints);
    let past = end(&case.rings) as usize + 2;
    case.chainages
        .extend((0..RANDOM_CHAINAGES).map(|_| random.below(past) as u64));
    case
}

/// Some rings, their number at a limit or between; mostly so short that joints are close together.
fn random_rings(random: &mut Random) -> Vec<u32> {
    let count = match random.below(4) {
        0 => *random.pick(&[0, 1, 2, 3]),
        1 => *random.pick(&[253, 254, 255, 255, 256, 257]),
        2 => random.between(4, 252),
        _ => random.between(1, MOST_RINGS_WITH_ALL_JOINTS),
    };
    let longest = *random.pick(&[1, 2, 3, 10, 300, 20_000]);
    let key_part = random.below(5);
    rings_of(count, longest, key_part, random)
}

/// Rings of at most the given length, one in six of just that length; so many of four are key rings.
fn rings_of(count: usize, longest: usize, key_part: usize, random: &mut Random) -> Vec<u32> {
    let ring = |_| {
        let length = match random.chance(1, 6) {
            true => longest,
            false => random.between(1, longest),
        };
        let kind = if random.chance(key_part, 4) { KEY } else { ORDINARY };
        [length as u32, kind]
    };
    (0..count).flat_map(ring).collect()
}

/// Puts a wrong word into a field of a ring, often the last one.
fn wrong_word(rings: &mut [u32], field: usize, words: &[u32], random: &mut Random) -> &'static str {
    let count = rings.len() / RING_WORDS;
    if count > 0 {
        let ring = match random.below(3) {
            0 => count - 1,
            _ => random.below(count),
        };
        rings[RING_WORDS * ring + field] = *random.pick(words);
    }
    match field {
        0 => "wrong length",
        _ => "wrong kind",
    }
}

fn word_left(rings: &mut Vec<u32>, random: &mut Random) -> &'static str {
    rings.push(random.below(3) as u32);
    "a word left"
}

fn word_lost(rings: &mut Vec<u32>) -> &'static str {
    rings.pop();
    "a word lost"
}

/// All joints of a short list, some of a long one.
fn some_joints(rings: &[u32], random: &mut Random) -> Vec<u64> {
    let all = joints(rings);
    match rings.len() / RING_WORDS <= MOST_RINGS_WITH_ALL_JOINTS {
        true => all,
        false => (0..JOINTS_OF_LONG_LIST).map(|_| *random.pick(&all)).collect(),
    }
}

#[cfg(test)]
mod tests {
    use super::*;
    use crate::desk::{owner, write_ring_table};
    use crate::refusal::Refusal;
    use std::collections::BTreeMap;

    /// How often each call answers with each number, 0 if it is accepted.
    fn answers(cases: impl Iterator<Item = Case>) -> [BTreeMap<u8, usize>; 2] {
        let [mut of_owner, mut of_table] = [BTreeMap::new(), BTreeMap::new()];
        for case in cases {
            for &chainage in &case.chainages {
                let number = owner(&case.rings, chainage).map_or_else(Refusal::number, |_| 0);
                *of_owner.entry(number).or_default() += 1;
            }
            for &length in &case.rooms {
                let written = write_ring_table(&case.rings, &mut vec![0; length]);
                *of_table
                    .entry(written.map_or_else(Refusal::number, |_| 0))
                    .or_default() += 1;
            }
        }
        [of_owner, of_table]
    }

    fn generated() -> impl Iterator<Item = Case> {
        (0..RANDOM_CASES).map(random_case)
    }

    /// Whether two rings own some chainage that is asked for.
    fn has_shared_joint(case: &Case) -> bool {
        let key_rings = case.rings.chunks_exact(RING_WORDS).map(|ring| ring[1] == KEY);
        let mut ends = joints(&case.rings).into_iter().zip(key_rings);
        owner(&case.rings, 0).is_ok() && ends.any(|(end, key)| key && case.chainages.contains(&end))
    }

    #[test]
    fn every_answer_occurs_often() {
        for [of_owner, of_table] in [answers(fixed_cases().into_iter()), answers(generated())] {
            assert_eq!(Vec::from_iter(of_owner.keys()), [&0, &14, &15], "{of_owner:?}");
            assert_eq!(Vec::from_iter(of_table.keys()), [&0, &14, &16], "{of_table:?}");
            assert!(of_owner.values().all(|&count| count > 2_000), "{of_owner:?}");
            assert!(of_table.values().all(|&count| count > 500), "{of_table:?}");
        }
    }

    #[test]
    fn many_lists_are_asked_for_a_joint_that_two_rings_own() {
        assert!(generated().filter(has_shared_joint).count() > 2_000);
    }

    #[test]
    fn the_seed_decides_a_generated_case() {
        for seed in 0..200 {
            let [one, other] = [seed; 2].map(random_case);
            assert_eq!(
                (one.rings, one.chainages, one.rooms),
                (other.rings, other.chainages, other.rooms)
            );
        }
    }

    #[test]
    fn numbers_of_rings_are_at_the_limits_and_between() {
        let mut counts: BTreeMap<usize, usize> = BTreeMap::new();
        for case in generated() {
            *counts.entry(case.rings.len() / RING_WORDS).or_default() += 1;
        }
        assert!((0..=257).all(|count| counts.contains_key(&count)));
        for limit in [0, 1, 2, 3, 254, 255, 256, 257] {
            assert!(counts[&limit] > 200, "{limit}: {}", counts[&limit]);
        }
    }
}
