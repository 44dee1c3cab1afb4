//! The lines of an input, each with what happens while the bench serves it and what the bench prints for it.

use crate::bench::{text_of, Bench};
use crate::configuration::Configuration;
use crate::lines::{parse_line, split_lines, Line, MOST_LINE_BYTES};
use crate::refusal::Refusal;
use crate::table::Table;
use crate::trace_event::Event;
use crate::trace_steps::{at_rest, steps_between};

/// A line of the input, what happened, and what the bench printed.
pub struct Served<'a> {
    pub line: &'a [u8],
    pub events: Vec<Event>,
    pub printed: String,
}

/// The whole text for a table file and an input; the refusal if the table is not served.
pub fn trace(file: &[u8], input: &[u8]) -> Result<String, Refusal> {
    let lines = served_lines(file, input)?;
    Ok(lines.iter().map(Served::text).collect())
}

/// All lines of an input with what happened.
pub fn served_lines<'a>(file: &[u8], input: &'a [u8]) -> Result<Vec<Served<'a>>, Refusal> {
    let mut bench = Bench::new(file)?;
    let lines = split_lines(input).into_iter();
    Ok(lines.map(|line| serve(&mut bench, line)).collect())
}

/// Lets the bench serve a line, and finds what happened from the points before and after it.
fn serve<'a>(bench: &mut Bench, line: &'a [u8]) -> Served<'a> {
    let before = bench.point();
    let answer = bench.try_to_serve(line);
    let mut events = match (&answer, parse_line(line), bench.point()) {
        (Ok(_), Some(line), Some(after)) => events_of(&bench.table(), line, before, &after),
        _ => Vec::new(),
    };
    events.extend(answer.as_ref().err().copied().map(Event::Refused));
    Served {
        line,
        events,
        printed: text_of(answer),
    }
}

/// What an accepted line did between two points.
fn events_of(table: &Table, line: Line, before: Option<Configuration>, after: &Configuration) -> Vec<Event> {
    match line {
        Line::Start { tasks } => {
            let started = Event::Started {
                tasks,
                states: table.states,
                operations: table.operations,
                state: table.start,
            };
            vec![started, at_rest(after)]
        }
        Line::Begin { task, operation } => vec![Event::Begun {
            task,
            operation,
            changing: table.is_changing(operation),
        }],
        Line::Step { task } | Line::Drive { task } => {
            before.map_or(Vec::new(), |before| steps_between(table, task, before, after))
        }
        Line::Print => vec![Event::Cells(after.cells().to_vec())],
    }
}

impl Served<'_> {
    /// The line, a line for each event, and the printed line.
    pub fn text(&self) -> String {
        let happened = self.events.iter().flat_map(Event::lines);
        let happened: String = happened.map(|line| format!("  {line}\n")).collect();
        let printed: String = self.printed.lines().map(|line| format!("< {line}\n")).collect();
        format!("> {}\n{happened}{printed}", shown(self.line))
    }
}

/// A line as it was read, every byte of it printable; of a long one the first bytes.
fn shown(line: &[u8]) -> String {
    let first = &line[..line.len().min(MOST_LINE_BYTES)];
    let text: String = first.iter().map(|&byte| shown_byte(byte)).collect();
    let cut = if line.len() > MOST_LINE_BYTES { "..." } else { "" };
    text + cut
}

fn shown_byte(byte: u8) -> String {
    match byte {
        b'\\' => r"\\".to_string(),
        b' '..=b'~' => char::from(byte).to_string(),
        _ => format!(r"\x{byte:02x}"),
    }
}

#[cfg(test)]
mod tests {
    use super::*;
    use crate::bench::output;
    use crate::script_cases::{fixed_scripts, random_script, Script, LISTING};
    use crate::table_file::TableFile;

    const RANDOM_SCRIPTS: u64 = 400;

    fn on_flag(input: &[u8]) -> String {
        trace(&TableFile::flag().to_bytes(), input).unwrap()
    }

    /// The text for the last line of an input.
    fn last_on_flag(input: &str) -> String {
        let text = on_flag(input.as_bytes());
        let start = text.rfind("\n> ").map_or(0, |end| end + 1);
        text[start..].to_string()
    }

    fn scripts() -> impl Iterator<Item = Script> {
        fixed_scripts()
            .into_iter()
            .chain((0..RANDOM_SCRIPTS).map(random_script))
    }

    /// The first three lines of the flag listing.
    const TASK_0_SETS: &str = "> n 2
  started: tasks 2, states 2, operations 3, state 0
  at rest in state 0
< n 2 2 3
> b 0 1
  task 0 begins operation 1, changing
> d 0
  task 0  step   1  Announce          write  announcement 0  0000000000000000 -> 0000000000010100    operation 1
  task 0  step   2  Poll              read   announcement 0  0000000000010100                        operation 1
  task 0  step   3  LoadHead          read   head            0000000000000000                        state 0
  task 0  step   4  LinkHead          swap   head            0000000000000000 -> 0000000000000001    state 0, marked by 0
  task 0  step   5  LoadPriority      read   announcement 0  0000000000010100                        operation 1
  task 0  step   6  Apply 0           swap   head            0000000000000001 -> 0000000011000100    state 1, response 0, moved, for task 0
  task 0  step   7  Poll              read   announcement 0  0000000000010100                        operation 1
  task 0  step   8  LoadHead          read   head            0000000011000100                        state 1, response 0, moved, for task 0
  task 0  step   9  LinkHead          swap   head            0000000011000100 -> 0000000011000101    state 1, response 0, moved, for task 0, marked by 0
  task 0  step  10  LoadHelped 0      read   announcement 0  0000000000010100                        operation 1
  task 0  step  11  LinkHelped 0      swap   announcement 0  0000000000010100 -> 0000000000010101    operation 1, marked by 0
  task 0  step  12  Validate 0        read   head            0000000011000101                        state 1, response 0, moved, for task 0, marked by 0
  task 0  step  13  HandOver 0        swap   announcement 0  0000000000010101 -> 0000000001000200    response 0, moved
  task 0  step  14  ClearHead         swap   head            0000000011000101 -> 0000000000000100    state 1
  task 0  step  15  Poll              read   announcement 0  0000000001000200                        response 0, moved
  task 0  step  16  LoadExit          read   head            0000000000000100                        state 1
  task 0  step  17  Retract           write  announcement 0  0000000001000200 -> 0000000000000000    empty
  task 0 ends operation 1: response 0, moved, own steps 17
  at rest in state 1
< r 0 0 1
";

    /// The next four lines of the flag listing.
    const TASK_1_READS: &str = "> b 1 0
  task 1 begins operation 0, reading
> s 1
  task 1  step   1  ReadOnly          read   head            0000000000000100                        state 1
  task 1 ends operation 0: response 1, not moved, own steps 1
< r 1 1 0
> b 1 2
  task 1 begins operation 2, changing
> m
  head            0000000000000100  state 1
  announcement 0  0000000000000000  empty
  announcement 1  0000000000000000  empty
  marks 0
  it follows: the operations made so far lead to state 1
  no trace of tasks 0 1: idle, reading, or changing and not yet announced
< m 0000000000000100 0000000000000000 0000000000000000 0
";

    /// How the last line but one of the flag listing ends, and the last one.
    const TASK_1_CLEARS: &str = "
  task 1  step  17  Retract           write  announcement 1  0000000001010200 -> 0000000000000000    empty
  task 1 ends operation 2: response 1, moved, own steps 17
  at rest in state 0
< r 1 1 1
> m
  head            0000000000000000  state 0
  announcement 0  0000000000000000  empty
  announcement 1  0000000000000000  empty
  marks 0
  it follows: the operations made so far lead to state 0
  no trace of tasks 0 1: idle, reading, or changing and not yet announced
< m 0000000000000000 0000000000000000 0000000000000000 0
";

    #[test]
    fn the_flag_listing() {
        let text = on_flag(LISTING.as_bytes());
        let rest = text.strip_prefix(TASK_0_SETS).expect("lines 1 to 3");
        let rest = rest.strip_prefix(TASK_1_READS).expect("lines 4 to 7");
        let rest = rest.strip_suffix(TASK_1_CLEARS).expect("the end");
        let clears: Vec<&str> = rest.lines().collect();
        assert_eq!((clears.len(), clears[0]), (17, "> d 1"));
        let applied = "  task 1  step   6  Apply 1           swap   head            \
                       0000000000000102 -> 0000000012010000    state 0, response 1, moved, for task 1";
        assert_eq!(clears[6], applied);
        assert_eq!(on_flag(LISTING.trim_end().as_bytes()), text);
    }

    #[test]
    fn a_swap_that_fails_shows_the_word_that_it_found_and_the_one_it_wanted() {
        let both_loaded = "n 2\nb 0 1\ns 0\ns 0\ns 0\nb 1 2\ns 1\ns 1\ns 1\ns 1\n";
        let expected = "> s 0\n  task 0  step   4  LinkHead          swap   head            \
                        0000000000000002, not 0000000000000000  state 0, marked by 1\n";
        assert_eq!(last_on_flag(&format!("{both_loaded}s 0\n")), expected);
    }

    #[test]
    fn rest_comes_with_the_end_of_the_last_changing_operation() {
        let rest = "\n  at rest in state ";
        let two_changing = "n 2\nb 0 1\ns 0\nb 1 2\nd 1\n";
        assert!(!last_on_flag(two_changing).contains(rest));
        let both_ended = last_on_flag(&format!("{two_changing}d 0\n"));
        assert!(both_ended.contains(rest));
        let one_reading = "n 2\nb 0 0\nb 1 1\nd 1\n";
        assert!(last_on_flag(one_reading).ends_with("own steps 17\n  at rest in state 1\n< r 1 0 1\n"));
        let read = last_on_flag(&format!("{one_reading}s 0\n"));
        assert!(read.ends_with("ends operation 0: response 1, not moved, own steps 1\n< r 0 1 0\n"));
    }

    #[test]
    fn another_start_and_a_print_in_mid_work() {
        let linked = format!("n 02\nb 00 001\n{}m\n", "s 0\n".repeat(4));
        let expected = "> m
  head            0000000000000001  state 0, marked by 0
  announcement 0  0000000000010100  operation 1
  announcement 1  0000000000000000  empty
  marks 1
  it follows: the operations made so far lead to state 0
  it follows: task 0 has a changing operation pending: announced, its mark stands in the head
  no trace of task 1: idle, reading, or changing and not yet announced
< m 0000000000000001 0000000000010100 0000000000000000 1
";
        assert_eq!(last_on_flag(&linked), expected);
        let expected = "> n 001
  started: tasks 1, states 2, operations 3, state 0
  at rest in state 0
< n 1 2 3
";
        assert_eq!(last_on_flag(&format!("{linked}n 001\n")), expected);
    }

    #[test]
    fn refused_lines_have_their_sentences() {
        let started = "n 2\nb 0 1\n";
        let no_form = "refused with 13: the line has no known form, or stands before an accepted n line";
        let no_operation = "refused with 10: the task has no operation pending";
        let no_tasks = "refused with 5: the number of tasks is not 1 to 8";
        let no_task = "refused with 7: the task number is not below the number of tasks";
        let cases = [
            ("", "m", no_form),
            ("", "d 0", no_form),
            (started, "M", no_form),
            ("", "n 0", no_tasks),
            (started, "n 999", no_tasks),
            (started, "b 2 9", no_task),
            (started, "d 256", no_task),
            (
                started,
                "b 0 3",
                "refused with 8: the operation number is not below the number of operations",
            ),
            (
                started,
                "b 0 0",
                "refused with 9: the task has an operation pending",
            ),
            (started, "s 1", no_operation),
            (started, "d 1", no_operation),
        ];
        for (before, line, refused) in cases {
            let number = refused.split([' ', ':']).nth(2).unwrap();
            let expected = format!("> {line}\n  {refused}\n< x {number}\n");
            assert_eq!(last_on_flag(&format!("{before}{line}\n")), expected);
        }
    }

    #[test]
    fn a_table_that_is_not_served_has_no_text() {
        assert_eq!(trace(&[], b"n 1\n"), Err(Refusal::File));
        let mut file = TableFile::flag();
        file.entries[8] = 2;
        assert_eq!(trace(&file.to_bytes(), b""), Err(Refusal::NextState));
        assert_eq!(on_flag(b""), "");
    }

    #[test]
    fn of_a_line_over_64_bytes_the_first_64_are_shown() {
        let refused = "refused with 13: the line has no known form, or stands before an accepted n line";
        let long = on_flag(&[b'm'; 65]);
        assert_eq!(long, format!("> {}...\n  {refused}\n< x 13\n", "m".repeat(64)));
        let longest = on_flag(&[b'\\'; 64]);
        assert_eq!(longest, format!("> {}\n  {refused}\n< x 13\n", "\\".repeat(128)));
        let end_unseen = on_flag(&[vec![0; 64], vec![b'm'; 5_000]].concat());
        assert_eq!(
            end_unseen,
            format!("> {}...\n  {refused}\n< x 13\n", "\\x00".repeat(64))
        );
    }

    #[test]
    fn bytes_that_do_not_print_are_shown_in_hex() {
        let text = on_flag(b" ~\\\t\r\x00\x1f\x7f\x80\xc3\xa9\xff\n\n");
        let first = text.lines().next().unwrap();
        assert_eq!(first, r">  ~\\\x09\x0d\x00\x1f\x7f\x80\xc3\xa9\xff");
        assert_eq!(text.lines().nth(3).unwrap(), "> ");
        assert_eq!(text.lines().count(), 6);
    }

    #[test]
    fn the_printed_lines_are_those_of_the_bench() {
        for script in scripts() {
            let table = script.table.as_deref().unwrap_or(&[]);
            let filtered = match trace(table, &script.input) {
                Err(refusal) => format!("x {}\n", refusal.number()),
                Ok(text) => printed_lines(&text),
            };
            assert_eq!(filtered, output(table, &script.input), "{}", script.name);
        }
    }

    fn printed_lines(text: &str) -> String {
        let lines = text.lines().filter_map(|line| line.strip_prefix("< "));
        lines.map(|line| format!("{line}\n")).collect()
    }

    #[test]
    fn the_steps_alone_lead_to_the_printed_cells() {
        for script in scripts() {
            let table = script.table.as_deref().unwrap_or(&[]);
            let mut cells = Vec::new();
            for line in served_lines(table, &script.input).into_iter().flatten() {
                line.events.iter().for_each(|event| follow(&mut cells, event));
            }
        }
    }

    /// Keeps the cells by what the events say of them.
    fn follow(cells: &mut Vec<u64>, event: &Event) {
        match event {
            Event::Started { tasks, state, .. } => {
                *cells = vec![0; tasks + 1];
                cells[0] = *state as u64 * 256;
            }
            Event::Stepped(step) => {
                assert_eq!(cells[step.access.cell], step.before);
                cells[step.access.cell] = step.after;
            }
            Event::Cells(printed) => assert_eq!(cells, printed),
            _ => (),
        }
    }
}
