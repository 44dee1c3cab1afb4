//! Table files for the comparison: fixed ones at every limit, and generated ones, valid and damaged.

use crate::random::Random;
use crate::reach_cases::{fixed_reach_cases, random_reach_case};
use crate::table::{MARK, MOST_FILE_BYTES, MOST_OPERATIONS, MOST_STATES, MOST_TEXT_BYTES, TRAILER_BYTES};
use crate::table_file::TableFile;

pub struct Case {
    pub name: String,
    pub file: Vec<u8>,
}

fn case(name: &str, file: Vec<u8>) -> Case {
    Case {
        name: name.to_string(),
        file,
    }
}

/// A file of the given size, all entries in range as far as the size allows that.
pub fn sized(states: u16, operations: u16, start: u16, random: &mut Random) -> TableFile {
    let count = usize::from(states) * usize::from(operations);
    let bound = usize::from(states).clamp(1, MOST_STATES);
    let entries: Vec<(u8, u8)> = (0..count)
        .map(|_| (random.below(bound) as u8, random.byte()))
        .collect();
    TableFile::plain(states, operations, start, &entries)
}

/// Cases at the limits, each with a consistent length unless its name says otherwise.
pub fn fixed_cases() -> Vec<Case> {
    let mut cases = Vec::new();
    add_short_files(&mut cases);
    add_dimensions(&mut cases);
    add_offsets(&mut cases);
    add_marks(&mut cases);
    add_next_states(&mut cases);
    cases.extend(fixed_reach_cases());
    cases
}

fn add_short_files(cases: &mut Vec<Case>) {
    let flag = TableFile::flag().to_bytes();
    cases.push(case("flag", flag.clone()));
    for length in [0, 1, 5, 6, 7, 14, 15, 16, 17, 18, 19, 27] {
        cases.push(case(
            &format!("last {length} bytes of flag"),
            flag[flag.len() - length..].to_vec(),
        ));
        cases.push(case(
            &format!("first {length} bytes of flag"),
            flag[..length].to_vec(),
        ));
        cases.push(case(&format!("{length} bytes of 0"), vec![0; length]));
    }
    cases.push(case(
        "smallest table",
        TableFile::plain(1, 1, 0, &[(0, 7)]).to_bytes(),
    ));
}

fn add_dimensions(cases: &mut Vec<Case>) {
    let mut random = Random::new(1);
    for states in [0, 1, 2, 255, 256, 257, 512, 513, 65_535] {
        for operations in [0, 1, 31, 32, 33, 256, 288] {
            let consistent = usize::from(states) * usize::from(operations) <= 16_384;
            let mut file = match consistent {
                true => sized(states, operations, 0, &mut random),
                false => sized(1, 1, 0, &mut random),
            };
            file.states = states;
            file.operations = operations;
            for start in [0, states.wrapping_sub(1), states, 256, 65_535] {
                file.start = start;
                cases.push(case(
                    &format!("s {states} m {operations} start {start}"),
                    file.to_bytes(),
                ));
            }
        }
    }
}

fn add_offsets(cases: &mut Vec<Case>) {
    let mut random = Random::new(2);
    let largest = sized(256, 32, 255, &mut random);
    for length in [0, 1, 4_095, 4_096, 4_097, 4_098] {
        let text = random.bytes(length);
        let flag = TableFile::flag().with_text(text.clone());
        cases.push(case(&format!("flag, offset {length}"), flag.to_bytes()));
        let large = largest.clone().with_text(text);
        cases.push(case(&format!("largest table, offset {length}"), large.to_bytes()));
    }
    for length in [20_495, 20_496, 20_497, 20_498, 30_000] {
        cases.push(case(&format!("{length} bytes of 0"), vec![0; length]));
        cases.push(case(
            &format!("{length} bytes that end like flag"),
            flag_at_end(length),
        ));
    }
    for missing in 1..=20 {
        cases.push(wrapping_offset(missing, &mut random));
    }
    for offset in [1, 2, 11, 12, 13, 16, 28, 65_536, 16_777_216, u32::MAX] {
        let mut file = TableFile::flag();
        file.offset = offset;
        cases.push(case(
            &format!("flag of 28 bytes, offset {offset}"),
            file.to_bytes(),
        ));
    }
}

fn flag_at_end(length: usize) -> Vec<u8> {
    let flag = TableFile::flag().to_bytes();
    let mut file = vec![0; length - flag.len()];
    file.extend(flag);
    file
}

/// A file that lacks some bytes, with an offset that would make up for them if it wrapped at 2^32.
fn wrapping_offset(missing: usize, random: &mut Random) -> Case {
    let mut file = sized(5, 4, 0, random);
    file.entries.truncate(file.entries.len() - missing);
    file.offset = 0u32.wrapping_sub(missing as u32);
    case(&format!("offset 2^32 - {missing}"), file.to_bytes())
}

fn add_marks(cases: &mut Vec<Case>) {
    for place in 0..MARK.len() {
        for change in [0x01, 0x20, 0x80] {
            let mut file = TableFile::flag();
            file.mark[place] ^= change;
            cases.push(case(
                &format!("flag, mark byte {place} changed by {change}"),
                file.to_bytes(),
            ));
        }
    }
    let inner = TableFile::flag().with_text(b"DRIVE1 is written here: DRIVE1".to_vec());
    cases.push(case("text with the mark", inner.to_bytes()));
    let double = TableFile::flag().with_text(TableFile::flag().to_bytes());
    cases.push(case("text that is a whole file", double.to_bytes()));
}

/// Next states out of range in the first, the last and every other entry of a table with unreachable states.
fn add_next_states(cases: &mut Vec<Case>) {
    let entries: Vec<(u8, u8)> = (0..20).map(|place| (place / 8, place)).collect();
    for place in 0..entries.len() {
        for next in [4, 5, 6, 255] {
            let mut file = TableFile::plain(5, 4, 0, &entries);
            file.entries[2 * place] = next;
            cases.push(case(
                &format!("entry {place} of 20 leads to {next} of 5"),
                file.to_bytes(),
            ));
        }
    }
}

/// One of the generated cases: every second one is of the kind in which it matters which states can be reached.
pub fn generated_case(number: u64) -> Case {
    match number % 2 {
        0 => random_case(number / 2),
        _ => random_reach_case(number / 2),
    }
}

/// A generated case; the seed alone decides it.
pub fn random_case(seed: u64) -> Case {
    let mut random = Random::new(seed);
    let table = random_table(&mut random);
    let (kind, file) = match random.below(10) {
        0 | 1 => ("valid", table.to_bytes()),
        2 => ("flipped bits", flip_bits(table.to_bytes(), &mut random)),
        3 => (
            "flipped bits of the trailer",
            flip_trailer_bits(table.to_bytes(), &mut random),
        ),
        4 => ("cut", cut(table.to_bytes(), &mut random)),
        5 => ("extended", extend(table.to_bytes(), &mut random)),
        6 => ("wrong offset", wrong_offset(table, &mut random)),
        7 => ("next state out of range", wrong_next_states(table, &mut random)),
        8 => ("trailer of another size", other_size(table, &mut random)),
        _ => ("any bytes before a mark", any_bytes(&mut random)),
    };
    case(&format!("seed {seed} ({kind})"), file)
}

/// A valid table: mostly small, sometimes of the largest size, with or without text.
pub fn random_table(random: &mut Random) -> TableFile {
    let states = match random.below(8) {
        0 => MOST_STATES,
        1 => random.between(1, MOST_STATES),
        2 => 1,
        _ => random.between(1, 9),
    };
    let operations = match random.below(8) {
        0 => MOST_OPERATIONS,
        1 => random.between(1, MOST_OPERATIONS),
        2 => 1,
        _ => random.between(1, 6),
    };
    let start = random.below(states);
    let mut file = sized(states as u16, operations as u16, start as u16, random);
    make_some_operations_reading(&mut file, random);
    let text = random_text(random);
    file.with_text(text)
}

/// Some operations keep every state, others keep every state but one.
fn make_some_operations_reading(file: &mut TableFile, random: &mut Random) {
    let (states, operations) = (usize::from(file.states), usize::from(file.operations));
    for operation in 0..operations {
        let spared = match random.below(4) {
            0 => states,
            1 => random.below(states),
            _ => continue,
        };
        for state in (0..states).filter(|&state| state != spared) {
            file.entries[2 * (state * operations + operation)] = state as u8;
        }
    }
}

fn random_text(random: &mut Random) -> Vec<u8> {
    let length = match random.below(6) {
        0 => random.between(1, 40),
        1 => random.between(1, MOST_TEXT_BYTES),
        _ => 0,
    };
    let mut text = random.bytes(length);
    if length > 40 && random.chance(1, 2) {
        let place = random.below(length - MARK.len());
        text[place..place + MARK.len()].copy_from_slice(MARK);
    }
    text
}

fn flip_bits(mut file: Vec<u8>, random: &mut Random) -> Vec<u8> {
    for _ in 0..random.between(1, 4) {
        let place = random.below(file.len());
        file[place] ^= 1 << random.below(8);
    }
    file
}

fn flip_trailer_bits(mut file: Vec<u8>, random: &mut Random) -> Vec<u8> {
    for _ in 0..random.between(1, 2) {
        let place = file.len() - 1 - random.below(TRAILER_BYTES);
        file[place] ^= 1 << random.below(8);
    }
    file
}

fn cut(file: Vec<u8>, random: &mut Random) -> Vec<u8> {
    let kept = random.below(file.len());
    match random.below(3) {
        0 => file[..kept].to_vec(),
        1 => file[file.len() - kept..].to_vec(),
        _ => {
            let lost = random.between(1, 3).min(file.len());
            file[lost..].to_vec()
        }
    }
}

fn extend(mut file: Vec<u8>, random: &mut Random) -> Vec<u8> {
    let length = random.between(1, 20);
    let more = random.bytes(length);
    match random.below(3) {
        0 => file.extend(more),
        1 => {
            file.splice(0..0, more);
        }
        _ => {
            let place = file.len() - TRAILER_BYTES;
            file.splice(place..place, more);
        }
    }
    file
}

fn wrong_offset(mut file: TableFile, random: &mut Random) -> Vec<u8> {
    let change = random.between(1, 3) as u32;
    file.offset = match random.below(5) {
        0 => file.offset.wrapping_add(change),
        1 => file.offset.wrapping_sub(change),
        2 => file.offset ^ (1 << random.below(32)),
        3 => random.next() as u32,
        _ => {
            let lost = random.below(file.entries.len()) + 1;
            file.entries.truncate(file.entries.len() - lost);
            file.offset.wrapping_sub(lost as u32)
        }
    };
    file.to_bytes()
}

/// Needs room above the number of states; a table of 256 states stays valid.
fn wrong_next_states(mut file: TableFile, random: &mut Random) -> Vec<u8> {
    let states = usize::from(file.states);
    let count = file.entries.len() / 2;
    let place = match random.below(3) {
        0 => 0,
        1 => count - 1,
        _ => random.below(count),
    };
    if states < MOST_STATES {
        let nearest = random.chance(1, 2);
        let next = if nearest {
            states
        } else {
            random.between(states, 255)
        };
        file.entries[2 * place] = next as u8;
    }
    file.to_bytes()
}

/// Another size with the same product, or any other size.
fn other_size(mut file: TableFile, random: &mut Random) -> Vec<u8> {
    match random.below(4) {
        0 => std::mem::swap(&mut file.states, &mut file.operations),
        1 => file.states = random.below(600) as u16,
        2 => file.operations = random.below(70) as u16,
        _ => file.start = random.below(600) as u16,
    }
    file.to_bytes()
}

fn any_bytes(random: &mut Random) -> Vec<u8> {
    let length = match random.chance(1, 10) {
        true => random.between(MOST_FILE_BYTES - 10, MOST_FILE_BYTES + 10),
        false => random.below(80),
    };
    let mut file = random.bytes(length);
    file.extend(MARK);
    file
}

#[cfg(test)]
mod tests {
    use super::*;
    use crate::table::Table;

    #[test]
    fn generated_tables_are_valid_and_the_seed_decides_them() {
        for seed in 0..200 {
            let file = random_table(&mut Random::new(seed)).to_bytes();
            assert!(Table::check(&file).is_ok(), "seed {seed}");
            assert_eq!(file, random_table(&mut Random::new(seed)).to_bytes());
        }
    }

    #[test]
    fn every_answer_of_check_occurs_among_the_cases() {
        let fixed = fixed_cases().into_iter();
        let mut seen = [0; 5];
        for case in fixed.chain((0..500).map(random_case)) {
            let answer = Table::check(&case.file).map_or_else(|refusal| refusal.number(), |_| 0);
            seen[usize::from(answer)] += 1;
        }
        assert!(seen.iter().all(|&count| count >= 20), "{seen:?}");
    }
}
