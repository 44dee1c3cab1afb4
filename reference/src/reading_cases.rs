//! Scripts about what is read: table files around the longest one, input that comes in pieces, some hundred of them, and
//! an operation of many steps. Variants of the bench that read otherwise must differ on them.

use crate::random::Random;
use crate::script_cases::{script, Script, LISTING};
use crate::table_cases::sized;
use crate::table_file::TableFile;

const PIECES: [usize; 3] = [1, 3, 7];

/// The input that takes some hundred reads, 456 if each gives one piece.
const LONG_INPUT: &str = "flag listing 12 times";

pub fn reading_scripts() -> Vec<Script> {
    let mut scripts = length_scripts();
    for piece in PIECES {
        scripts.extend(inputs_in_pieces().map(|(name, input)| in_pieces(name, input, piece)));
    }
    scripts.push(in_pieces(LONG_INPUT, &LISTING.repeat(12), 1));
    let flag = TableFile::flag().to_bytes();
    scripts.push(script("long operation", Some(flag), &long_operation()));
    scripts
}

/// A script over the flag object whose input comes through a pipe.
fn in_pieces(name: &str, input: &str, piece: usize) -> Script {
    Script {
        name: format!("{name} in pieces of {piece}"),
        piece: Some(piece),
        ..script(name, Some(TableFile::flag().to_bytes()), input)
    }
}

/// The longest file that is served: 256 states, 32 operations and 4,096 bytes of text.
fn longest_table() -> Vec<u8> {
    let table = sized(256, 32, 255, &mut Random::new(1));
    table.with_text(vec![b'#'; 4_096]).to_bytes()
}

/// The longest file, alone and with bytes before or after it, and files far over the limit.
fn length_scripts() -> Vec<Script> {
    let longest = longest_table();
    let zeros = |count: usize| vec![0; count];
    vec![
        script("longest table", Some(longest.clone()), LISTING),
        with_table("longest table and a byte", &[&longest, &[0]]),
        with_table("longest table and a mark", &[&longest, b"DRIVE1"]),
        with_table("a byte and the longest table", &[&[0], &longest]),
        with_table("longest table and 100000 bytes", &[&longest, &zeros(100_000)]),
        with_table("longest table twice", &[&longest, &longest]),
        with_table("table of 20497 bytes", &[&zeros(20_497)]),
        with_table("table of 30000 bytes", &[&zeros(30_000)]),
        with_table("table of 1000000 bytes", &[&zeros(1_000_000)]),
    ]
}

fn with_table(name: &str, parts: &[&[u8]]) -> Script {
    script(name, Some(parts.concat()), LISTING)
}

/// Inputs of some bytes, each ending otherwise.
fn inputs_in_pieces() -> impl Iterator<Item = (&'static str, &'static str)> {
    let unfinished = LISTING.trim_end();
    let refused = "m\nn 9\n\nn 8\nb 7 2\nd 7\nm\ns 7\n\n";
    [
        ("flag listing", LISTING),
        ("flag listing without its last byte", unfinished),
        ("refused lines", refused),
    ]
    .into_iter()
}

/// The lines before the long operation's `d 0`: seven other tasks stand still after their first step.
fn before_long_operation() -> String {
    let others: String = (1..8).map(|task| format!("b {task} 1\ns {task}\n")).collect();
    format!("n 8\nb 0 1\nd 0\n{others}b 0 2\n")
}

fn long_operation() -> String {
    format!("{}d 0\nm\n", before_long_operation())
}

#[cfg(test)]
mod tests {
    use super::*;
    use crate::bench::{output, Bench};
    use crate::lines::split_lines;
    use crate::table::MOST_FILE_BYTES;

    /// The names of those scripts on which a variant prints something else than the bench.
    fn differing(variant: impl Fn(&[u8], &Script) -> String) -> Vec<String> {
        let differs = |script: &Script| {
            let table = script.table.as_deref().unwrap_or(&[]);
            let read = &table[..table.len().min(MOST_FILE_BYTES + 1)];
            variant(read, script) != output(read, &script.input)
        };
        let scripts = reading_scripts().into_iter().filter(differs);
        scripts.map(|script| script.name).collect()
    }

    /// A variant that reads no more than some pieces of the input.
    fn first_pieces(reads: usize) -> impl Fn(&[u8], &Script) -> String {
        move |read, script| {
            let length = script.input.len();
            let end = script.piece.map_or(length, |piece| length.min(piece * reads));
            output(read, &script.input[..end])
        }
    }

    #[test]
    fn the_longest_table_is_as_long_as_a_file_may_be() {
        assert_eq!(longest_table().len(), MOST_FILE_BYTES);
        assert!(Bench::new(&longest_table()).is_ok());
    }

    #[test]
    fn a_buffer_without_room_for_a_byte_too_many() {
        let cut =
            |read: &[u8], script: &Script| output(&read[..read.len().min(MOST_FILE_BYTES)], &script.input);
        let expected = [
            "longest table and a byte",
            "longest table and a mark",
            "longest table and 100000 bytes",
            "longest table twice",
        ];
        assert_eq!(differing(cut), expected);
    }

    #[test]
    fn a_short_read_taken_for_the_end() {
        assert_eq!(
            differing(first_pieces(1)).len(),
            PIECES.len() * inputs_in_pieces().count() + 1
        );
    }

    #[test]
    fn a_reading_that_stops_after_some_reads() {
        for reads in [64, 256, 400] {
            assert_eq!(
                differing(first_pieces(reads)),
                [format!("{LONG_INPUT} in pieces of 1")]
            );
        }
    }

    #[test]
    fn the_long_operation_needs_more_than_a_first_step_and_100_more() {
        let file = TableFile::flag().to_bytes();
        let mut bench = Bench::new(&file).expect("the flag object is served");
        for line in split_lines(before_long_operation().as_bytes()) {
            bench.serve(line);
        }
        let printed: Vec<String> = (0..108).map(|_| bench.serve(b"s 0")).collect();
        assert_eq!(printed[107], "r 0 1 1\n");
        assert!(printed[..107].iter().all(String::is_empty));
    }
}
