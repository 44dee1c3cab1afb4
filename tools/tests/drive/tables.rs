//! Object files and their texts, compared with the second program.

use crate::program::drive;
use reference::random::Random;
use reference::refusal::Refusal;
use reference::table::Table;
use reference::table_cases::{fixed_cases, generated_case, random_table};
use reference::table_file::TableFile;
use reference::trace_event::refused;

const GENERATED_CASES: u64 = 400;
const RANDOM_TEXTS: u64 = 200;

fn files() -> Vec<Vec<u8>> {
    let cases = fixed_cases()
        .into_iter()
        .chain((0..GENERATED_CASES).map(generated_case));
    cases.map(|case| case.file).collect()
}

/// What check prints for a table without names.
pub fn report(table: &Table, text: usize) -> String {
    let (states, operations, start) = (table.states, table.operations, table.start);
    let mut report = format!("states       {states}\noperations   {operations}\nstart state  {start}\n");
    report += &format!("free text    {text} bytes\n\n");
    let width = (operations - 1).to_string().len();
    for operation in 0..operations {
        let kind = if table.is_changing(operation) {
            "changing"
        } else {
            "reading"
        };
        report += &format!("operation {operation:<width$}  {kind}\n");
    }
    report
}

#[test]
fn check_says_what_the_second_program_says() {
    let (mut served, mut refusals) = (0, std::collections::BTreeSet::new());
    for file in files() {
        let ran = drive(&["check", "-"], &file);
        match Table::check(&file) {
            Ok(table) => {
                let text = file.len() - 16 - 2 * table.states * table.operations;
                assert_eq!(ran.text(), report(&table, text));
                served += 1;
            }
            Err(refusal) => {
                assert_eq!(
                    ran.failure(),
                    format!("drive: the table is {}\n", refused(refusal))
                );
                refusals.insert(refusal.number());
            }
        }
    }
    assert!(served > 50);
    assert_eq!(Vec::from_iter(refusals), [1, 2, 3, 4]);
}

/// What is shown of a file reads back to its bytes, and has nothing that a reader or an editor would lose.
pub fn reads_back(file: &[u8]) {
    let shown = drive(&["show", "-"], file).text();
    let visible = |line: &str| !line.ends_with(' ') && !line.contains(char::is_control);
    assert!(shown.split('\n').all(visible), "{shown}");
    let read = drive(&["table", "-"], shown.as_bytes());
    assert_eq!((read.status, read.err.as_str()), (0, ""), "{shown}");
    assert_eq!(read.out, file, "{shown}");
}

#[test]
fn what_is_shown_reads_back_to_the_same_bytes() {
    for file in files() {
        match Table::check(&file) {
            Ok(_) => reads_back(&file),
            Err(refusal) => {
                let said = drive(&["show", "-"], &file).failure();
                assert_eq!(said, format!("drive: the table is {}\n", refused(refusal)));
            }
        }
    }
}

/// Bytes and pieces that a text form could lose.
const PIECES: [&str; 17] = [
    "\n", "\n\n", " ", " \n", "\\", "\\\\", "\\x41", "\r", "\r\n", "\t", "#", "|", "->", "\u{e9}", "\u{85}",
    "\0", "\u{7f}",
];

/// Lines of the text that name the states of the flag, and lines that don't.
const NAMINGS: [&str; 7] = [
    "states: up down\n",
    "states: up up\n",
    "states: 1 0\n",
    "states: -> #\n",
    "states: up\n",
    "states: a b c\n",
    "operations: x y z\n",
];

fn random_text(random: &mut Random) -> Vec<u8> {
    let mut text = Vec::new();
    for _ in 0..random.below(12) {
        match random.below(4) {
            0 => text.push(random.byte()),
            1 => text.extend(random.pick(&NAMINGS).bytes()),
            _ => text.extend(random.pick(&PIECES).bytes()),
        }
    }
    text
}

#[test]
fn every_free_text_reads_back_to_the_same_bytes() {
    for seed in 0..RANDOM_TEXTS {
        let mut random = Random::new(seed);
        let table = match random.below(2) {
            0 => TableFile::flag(),
            _ => random_table(&mut random),
        };
        reads_back(&table.with_text(random_text(&mut random)).to_bytes());
    }
}

#[test]
fn only_a_full_list_of_different_names_names_the_states() {
    for (naming, start) in NAMINGS.iter().zip(["up", "0", "0", "0", "0", "0", "0"]) {
        let file = TableFile::flag().with_text(naming.as_bytes().to_vec()).to_bytes();
        assert!(
            drive(&["show", "-"], &file)
                .text()
                .contains(&format!("\nstart {start}\n")),
            "{naming}"
        );
    }
}

#[test]
fn the_flag_is_shown_by_numbers() {
    let flag = TableFile::flag().to_bytes();
    let shown = "states 2\noperations 3\nstart 0\n\n# state operation -> next-state response\n\
                 0  0  ->  0  0\n0  1  ->  1  0\n0  2  ->  0  0\n\
                 1  0  ->  1  1\n1  1  ->  1  1\n1  2  ->  0  1\n";
    assert_eq!(drive(&["show", "-"], &flag).text(), shown);
}

const NAMED_FLAG: &str = "examples/flag.txt";

/// The text of the example but for its comments.
fn without_comments(text: &str) -> String {
    let lines = text.lines().filter(|line| !line.starts_with("# The"));
    lines.map(|line| format!("{line}\n")).collect()
}

#[test]
fn the_example_has_its_names() {
    let text = std::fs::read_to_string(NAMED_FLAG).expect("the example");
    let free: Vec<&str> = text.lines().filter_map(|line| line.strip_prefix("| ")).collect();
    let expected = TableFile::flag()
        .with_text((free.join("\n") + "\n").into_bytes())
        .to_bytes();
    let file = drive(&["table", NAMED_FLAG], b"").out;
    assert_eq!(file, expected);
    assert_eq!(drive(&["show", "-"], &file).text(), without_comments(&text));
    let checked = drive(&["check", "-"], &file).text();
    assert!(
        checked.contains("start state  0 down\n")
            && checked.contains("\n\noperation 0 read   reading\noperation 1 set    changing\n")
    );
}

/// A text of an object with one state and one operation, and lines besides.
fn small(lines: &str) -> String {
    format!("states 1\noperations 1\nstart 0\n0 0 -> 0 255\n{lines}")
}

fn refused_with(text: &str, reason: &str) {
    let said = drive(&["table", "-"], text.as_bytes()).failure();
    assert_eq!(said, format!("drive: {reason}\n"));
}

const NO_STATE: &str =
    "is no state: they are 0 to 0; names are listed in the text, as '| states: NAME NAME', one for each";

#[test]
fn a_wrong_line_is_refused_with_its_number() {
    let form = "a line is '| text', 'states N', 'operations N', 'start STATE', \
                'STATE OPERATION -> STATE RESPONSE', or '# comment'";
    for (line, reason) in [
        ("what", form),
        ("states 2", "line 1 has said this"),
        ("0 0 -> 0 0", "state 0 has operation 0 twice"),
        ("1 0 -> 0 0", &format!("1 {NO_STATE}")),
        ("0 0 -> up 0", &format!("up {NO_STATE}")),
        (
            "0 0 -> 0 256",
            "256 is no response: responses are numbers from 0 to 255",
        ),
        (
            "| \\q",
            "a backslash stands before \\, before xNN, or at the end of a line",
        ),
    ] {
        refused_with(&small(line), &format!("line 5: {reason}"));
    }
    let named = small("| states: up\n1 0 -> 0 0");
    refused_with(
        &named,
        "line 6: 1 is no state: they are 0 to 0, or go by their names",
    );
}

#[test]
fn a_text_that_is_no_object_is_refused() {
    let long = small(&format!("| {}", "x".repeat(4_096)));
    refused_with(&long, &format!("the table is {}", refused(Refusal::Length)));
    for (text, reason) in [
        ("operations 1\nstart 0\n", "there is no line 'states N'"),
        ("states 1\nstart 0\n", "there is no line 'operations N'"),
        ("states 1\noperations 1\n", "there is no line 'start STATE'"),
        ("states x\noperations 1\nstart 0\n", "line 1: x is no number"),
        (
            "states 257\noperations 1\nstart 0\n",
            &refused(Refusal::Dimensions),
        ),
        ("states 1\noperations 0\nstart 0\n", &refused(Refusal::Dimensions)),
        (
            "states 2\noperations 1\nstart 0\n1 0 -> 0 0\n",
            "there is no entry for operation 0 in state 0",
        ),
        (
            "states 1\noperations 1\nstart 1\n0 0 -> 0 0\n",
            &format!("line 3: 1 {NO_STATE}"),
        ),
    ] {
        refused_with(text, reason);
    }
    assert_eq!(
        drive(&["table", "-"], b"\xff").failure(),
        "drive: the text is not UTF-8\n"
    );
}

/// Two states and five operations with names: the last keeps every state, the one before it turns them over, and the others
/// lead to the state `b-2`.
const NAMED: &str = "| states: a_1 b-2
| states: other names
| operations: r s1 t u v
states 2
operations 5
start b-2
a_1 r -> b-2 0
a_1 s1 -> b-2 1
a_1 t -> b-2 2
a_1 u -> b-2 3
a_1 v -> a_1 4
b-2 r -> b-2 5
b-2 s1 -> b-2 6
b-2 t -> b-2 7
b-2 u -> a_1 8
b-2 v -> b-2 9
";

#[test]
fn names_have_digits_and_dashes_and_the_first_full_list_stands() {
    let file = drive(&["table", "-"], NAMED.as_bytes()).out;
    let shown = drive(&["show", "-"], &file).text();
    assert!(
        shown.contains("start b-2\n") && shown.contains("\na_1  s1  ->  b-2  1\n"),
        "{shown}"
    );
    let checked = drive(&["check", "-"], &file).text();
    assert!(
        checked.contains("operation 1 s1  changing\noperation 2 t   changing\n"),
        "{checked}"
    );
    assert!(checked.contains("operation 4 v   reading\n"), "{checked}");
}

#[test]
fn other_line_ends_comments_and_hex_digits_give_the_same_file() {
    let file = drive(&["table", "-"], NAMED.as_bytes()).out;
    for text in [
        NAMED.replace('\n', "\r\n"),
        format!("#comment\n  # comment\n\n{NAMED}"),
        NAMED.replace("| o", "| \\x6F"),
    ] {
        assert_eq!(drive(&["table", "-"], text.as_bytes()).out, file, "{text}");
    }
    let text = "| Sch\u{e4}cht \\xC3\\xa9\n".to_string() + NAMED;
    let file = drive(&["table", "-"], text.as_bytes()).out;
    assert!(drive(&["show", "-"], &file)
        .text()
        .starts_with("| Sch\u{e4}cht \u{e9}\n"));
}

#[test]
fn errors_name_the_line_the_state_and_the_operation() {
    let without = NAMED.replace("b-2 t -> b-2 7\n", "");
    refused_with(&without, "there is no entry for operation t in state b-2");
    refused_with(
        &format!("{NAMED}a_1 u -> a_1 0\n"),
        "line 17: state a_1 has operation u twice",
    );
    let operation = "line 14: w is no operation: they are 0 to 4, or go by their names";
    refused_with(&NAMED.replace("b-2 t ->", "b-2 w ->"), operation);
    refused_with(
        &NAMED.replace("start b-2", "start c"),
        "line 6: c is no state: they are 0 to 1, or go by their names",
    );
    for escape in ["\\x", "\\x4", "\\x4g", "\\x\u{e9}"] {
        let reason = "line 1: a backslash stands before \\, before xNN, or at the end of a line";
        refused_with(&format!("| {escape}\n"), reason);
    }
}

#[test]
fn a_list_that_names_nothing_is_told() {
    for (list, reason) in [
        ("up", "it has 1 names for 2"),
        ("a b c", "it has 3 names for 2"),
        ("up up", "up stands twice"),
        ("up 1", "1 is no name"),
    ] {
        let misfit = format!("the text's line 'states:' is not used: {reason}");
        let file = TableFile::flag()
            .with_text(format!("states: {list}\n").into_bytes())
            .to_bytes();
        assert!(
            drive(&["check", "-"], &file)
                .text()
                .contains(&format!("\nnote         {misfit}\n\n")),
            "{list}"
        );
        let text = format!("| states: {list}\nstates 2\noperations 1\nstart left\n");
        refused_with(
            &text,
            &format!("line 4: left is no state: they are 0 to 1; {misfit}"),
        );
    }
}
