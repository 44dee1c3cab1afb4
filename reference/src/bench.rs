//! The bench program: a table file, lines of input, and what is printed for them.

use std::fs::File;
use std::io::Read;
use std::path::Path;

use crate::calls;
use crate::ceiling::ceiling;
use crate::cells::{count_marks, MOST_TASKS};
use crate::configuration::Configuration;
use crate::lines::{parse_line, split_lines, Line};
use crate::machine::Answer;
use crate::record::Record;
use crate::refusal::Refusal;
use crate::rules::Rules;
use crate::table::{Table, MOST_FILE_BYTES};

pub struct Bench<'a> {
    table: Table<'a>,
    rules: Rules,
    run: Option<Run>,
}

/// The present run: its cells and its row.
struct Run {
    cells: Vec<u64>,
    row: Vec<Record>,
}

/// What a line prints, if it prints anything.
pub type Printed = Result<Option<String>, Refusal>;

/// Everything that the bench prints for a table file and an input.
pub fn output(file: &[u8], input: &[u8]) -> String {
    let mut bench = match Bench::new(file) {
        Ok(bench) => bench,
        Err(refusal) => return refusal_line(refusal),
    };
    split_lines(input)
        .into_iter()
        .map(|line| bench.serve(line))
        .collect()
}

/// The bytes of `table.bin` in a folder, no more than the bench reads; none if there is no such file.
pub fn read_table_file(folder: &Path) -> Vec<u8> {
    let mut bytes = Vec::new();
    if let Ok(file) = File::open(folder.join("table.bin")) {
        let _end_at_error = file.take(MOST_FILE_BYTES as u64 + 1).read_to_end(&mut bytes);
    }
    bytes
}

/// What the bench prints in a folder that holds `table.bin` and `stdin`.
pub fn output_in_folder(folder: &Path) -> Result<String, String> {
    let path = folder.join("stdin");
    let input = std::fs::read(&path).map_err(|error| format!("{}: {error}", path.display()))?;
    Ok(output(&read_table_file(folder), &input))
}

fn refusal_line(refusal: Refusal) -> String {
    format!("x {}\n", refusal.number())
}

/// The printed line, or nothing.
pub fn text_of(printed: Printed) -> String {
    match printed {
        Ok(None) => String::new(),
        Ok(Some(text)) => format!("{text}\n"),
        Err(refusal) => refusal_line(refusal),
    }
}

impl<'a> Bench<'a> {
    pub fn new(file: &'a [u8]) -> Result<Bench<'a>, Refusal> {
        let table = Table::check(file)?.with_changing_noted();
        Ok(Bench {
            table,
            rules: Rules::MACHINE,
            run: None,
        })
    }

    /// Serves one line and gives what it prints.
    pub fn serve(&mut self, line: &[u8]) -> String {
        text_of(self.try_to_serve(line))
    }

    /// Serves one line.
    pub fn try_to_serve(&mut self, line: &[u8]) -> Printed {
        let line = parse_line(line).ok_or(Refusal::Line)?;
        let (table, rules) = (&self.table, self.rules);
        match (line, &mut self.run) {
            (Line::Start { tasks }, _) => self.start(tasks),
            (_, None) => Err(Refusal::Line),
            (Line::Begin { task, operation }, Some(run)) => {
                rules.begin(table, &mut run.row, task, operation).map(|()| None)
            }
            (Line::Step { task }, Some(run)) => run.step(rules, table, task),
            (Line::Drive { task }, Some(run)) => run.drive(rules, table, task),
            (Line::Print, Some(run)) => Ok(Some(run.print())),
        }
    }

    /// A refused start leaves the present run as it is. A row of 9 stands for all longer ones.
    fn start(&mut self, tasks: usize) -> Printed {
        let records = tasks.min(MOST_TASKS + 1);
        let mut run = Run {
            cells: vec![0; records + 1],
            row: vec![Record::default(); records],
        };
        calls::start(&self.table, &mut run.cells, &mut run.row)?;
        self.run = Some(run);
        let (states, operations) = (self.table.states, self.table.operations);
        Ok(Some(format!("n {tasks} {states} {operations}")))
    }

    pub fn table(&self) -> Table<'a> {
        self.table
    }

    /// The present run's cells and row, if there is a run.
    pub fn point(&self) -> Option<Configuration> {
        let run = self.run.as_ref()?;
        Some(Configuration::of_parts(&run.cells, &run.row))
    }

    pub fn operations(&self) -> usize {
        self.table.operations
    }

    /// The tasks of the present run, each with the news whether an operation is pending.
    pub fn pending(&self) -> Vec<bool> {
        let row = self.run.as_ref().map_or(&[][..], |run| &run.row);
        row.iter().map(Record::is_pending).collect()
    }
}

#[cfg(test)]
impl Bench<'_> {
    /// The bench of a wrong build.
    pub fn with_rules(self, rules: Rules) -> Self {
        Bench { rules, ..self }
    }
}

impl Run {
    fn step(&mut self, rules: Rules, table: &Table, task: usize) -> Printed {
        match rules.step(table, &mut self.cells, &mut self.row, task)? {
            Answer::Running => Ok(None),
            Answer::Ended { response, moved, .. } => {
                let moved = u8::from(moved);
                Ok(Some(format!("r {task} {response} {moved}")))
            }
        }
    }

    /// An operation ends, or is refused, before the turns are used up.
    fn drive(&mut self, rules: Rules, table: &Table, task: usize) -> Printed {
        for _ in 0..=ceiling(self.row.len())? {
            let printed = self.step(rules, table, task)?;
            if printed.is_some() {
                return Ok(printed);
            }
        }
        Ok(None)
    }

    fn print(&self) -> String {
        let cells: String = self.cells.iter().map(|cell| format!(" {cell:016x}")).collect();
        format!("m{cells} {}", count_marks(&self.cells))
    }
}

#[cfg(test)]
mod tests {
    use super::*;
    use crate::table_file::TableFile;

    fn on_flag(input: &str) -> String {
        output(&TableFile::flag().to_bytes(), input.as_bytes())
    }

    #[test]
    fn the_flag_listing() {
        let input = "n 2\nb 0 1\nd 0\nb 1 0\ns 1\nb 1 2\nm\nd 1\nm\n";
        let expected = "n 2 2 3
r 0 0 1
r 1 1 0
m 0000000000000100 0000000000000000 0000000000000000 0
r 1 1 1
m 0000000000000000 0000000000000000 0000000000000000 0
";
        assert_eq!(on_flag(input), expected);
        assert_eq!(on_flag(input.trim_end()), expected);
    }

    #[test]
    fn a_table_that_is_not_served_prints_its_number_and_nothing_else() {
        assert_eq!(output(&[], b""), "x 1\n");
        assert_eq!(output(&[], b"n 2\nm\n"), "x 1\n");
        assert_eq!(output(&TableFile::flag().to_bytes(), b""), "");
    }

    #[test]
    fn texts_of_4096_and_4097_bytes() {
        let longest = TableFile::flag().with_text(vec![0; 4_096]).to_bytes();
        assert_eq!(output(&longest, b"n 1\n"), "n 1 2 3\n");
        let longer = TableFile::flag().with_text(vec![0; 4_097]).to_bytes();
        assert_eq!(output(&longer, b"n 1\n"), "x 3\n");
    }

    #[test]
    fn lines_before_an_accepted_start() {
        assert_eq!(
            on_flag("m\nb 0 0\ns 9\nd 0\nn 0\nm\nn 9\nn 256\nn 1000\nn 1\n"),
            { "x 13\nx 13\nx 13\nx 13\nx 5\nx 13\nx 5\nx 5\nx 13\nn 1 2 3\n" }
        );
    }

    #[test]
    fn begin_twice_and_a_step_when_idle() {
        assert_eq!(
            on_flag("n 1\nb 0 1\nb 0 1\nd 0\ns 0\nd 0\n"),
            "n 1 2 3\nx 9\nr 0 0 1\nx 10\nx 10\n"
        );
        assert_eq!(on_flag("n 2\nb 2 9\nb 256 0\nb 1 3\nb 1 256\ns 2\nd 256\n"), {
            "n 2 2 3\nx 7\nx 7\nx 8\nx 8\nx 7\nx 7\n"
        });
    }

    #[test]
    fn a_refused_start_leaves_the_run_and_an_accepted_one_opens_another() {
        let begun = "n 002\nb 0 1\ns 0\n";
        let announced = "m 0000000000000000 0000000000010100 0000000000000000 0\n";
        assert_eq!(
            on_flag(&format!("{begun}n 9\nm\n")),
            format!("n 2 2 3\nx 5\n{announced}")
        );
        let empty = "m 0000000000000000 0000000000000000 0\n";
        assert_eq!(
            on_flag(&format!("{begun}n 1\nm\n")),
            format!("n 2 2 3\nn 1 2 3\n{empty}")
        );
    }

    #[test]
    fn prints_in_mid_work_show_marks_and_the_holder() {
        let steps = "s 0\n".repeat(4);
        let linked = "m 0000000000000001 0000000000010100 0000000000000000 1\n";
        assert_eq!(
            on_flag(&format!("n 2\nb 0 1\n{steps}m\n")),
            format!("n 2 2 3\n{linked}")
        );
        let steps = "s 0\n".repeat(6);
        let held = "m 0000000011000100 0000000000010100 0000000000000000 0\n";
        assert_eq!(
            on_flag(&format!("n 2\nb 0 1\n{steps}m\n")),
            format!("n 2 2 3\n{held}")
        );
        let held = "m 0000000001000000 0000000000020100 0000000000000000 0\n";
        assert_eq!(
            on_flag(&format!("n 2\nb 0 2\n{steps}m\n")),
            format!("n 2 2 3\n{held}")
        );
    }

    #[test]
    fn an_operation_says_whether_it_moved_the_state_that_it_met() {
        let input = "n 1\nb 0 2\nd 0\nb 0 1\nd 0\nb 0 1\nd 0\nb 0 0\nd 0\nb 0 2\nd 0\n";
        let expected = "n 1 2 3\nr 0 0 0\nr 0 0 1\nr 0 1 0\nr 0 1 0\nr 0 1 1\n";
        assert_eq!(on_flag(input), expected);
    }
}
