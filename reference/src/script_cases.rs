//! Folders for the comparison of the benches: a table file and an input, fixed ones and generated ones.

use crate::bench::Bench;
use crate::random::Random;
use crate::reach_cases::random_reach_table;
use crate::reading_cases::reading_scripts;
use crate::table_cases::{random_case, random_table};
use crate::table_file::TableFile;

pub struct Script {
    pub name: String,
    /// No table file at all, if there is none.
    pub table: Option<Vec<u8>>,
    pub input: Vec<u8>,
    /// How many bytes of the input are written to a pipe at a time; without a number the input is a file.
    pub piece: Option<usize>,
}

/// The input of the flag listing in docs/FORMATS.md.
pub const LISTING: &str = "n 2\nb 0 1\nd 0\nb 1 0\ns 1\nb 1 2\nm\nd 1\nm\n";

/// The cases of docs/FORMATS.md and the forms of lines, mostly over the flag object.
pub fn fixed_scripts() -> Vec<Script> {
    let flag = TableFile::flag().to_bytes();
    let mut scripts = table_scripts();
    for (name, input) in flag_inputs() {
        scripts.push(script(name, Some(flag.clone()), &input));
    }
    scripts.extend(reading_scripts());
    scripts
}

/// Tables that are absent, empty, or at the limit of their text.
fn table_scripts() -> Vec<Script> {
    let with_text = |length: usize| TableFile::flag().with_text(vec![b'#'; length]).to_bytes();
    vec![
        script("absent table", None, "n 1\nm\n"),
        script("absent table, no input", None, ""),
        script("empty table", Some(Vec::new()), "n 1\n"),
        script("offset 4096", Some(with_text(4_096)), LISTING),
        script("offset 4097", Some(with_text(4_097)), LISTING),
    ]
}

fn flag_inputs() -> Vec<(&'static str, String)> {
    let starts = "m\ns 0\nn 0\nm\nn 9\nn 256\nn 999\nn 1000\nn 8\nm\nn 0\nm\nn 01\nm";
    let large = "n 2\nb 256 0\nb 0 256\nb 999 999\ns 256\nd 258\nb 002 001\nb 001 001\nd 01\n";
    let alone = "n 1\nb 0 1\nd 0\nm\nb 0 0\nd 0\nb 0 2\nd 0\nm\n";
    vec![
        ("flag listing", LISTING.to_string()),
        (
            "flag listing without its last byte",
            LISTING.trim_end().to_string(),
        ),
        ("no input", String::new()),
        ("begin twice", "n 2\nb 0 1\nb 0 1\nb 0 0\nm\nd 0\nm\n".to_string()),
        (
            "step when idle",
            "n 2\ns 0\nd 0\ns 1\nd 1\ns 2\nd 2\nm\n".to_string(),
        ),
        ("one task alone", alone.to_string()),
        ("every step of one task", every_step_of_one_task()),
        ("starts", starts.to_string()),
        ("large numbers", large.to_string()),
        ("forms of lines", forms_of_lines()),
        ("long lines", long_lines()),
        ("empty lines", "\n\nn 1\n\nm\n\n".to_string()),
        ("one empty line", "\n".to_string()),
    ]
}

/// A script whose input is a file.
pub fn script(name: &str, table: Option<Vec<u8>>, input: &str) -> Script {
    Script {
        name: name.to_string(),
        table,
        input: input.as_bytes().to_vec(),
        piece: None,
    }
}

/// A set and a clear that move the state, each made a second time, when it doesn't.
fn every_step_of_one_task() -> String {
    let steps = "s 0\nm\n".repeat(18);
    let operations = [1, 1, 2, 2].map(|operation| format!("b 0 {operation}\nm\n{steps}"));
    format!("n 1\n{}", operations.concat())
}

const WRONG_LINES: [&str; 28] = [
    "", " ", "m ", " m", "m 0", "M", "n", "n ", "n  1", "n 1 ", " n 1", "n\t1", "n 1\r", "n +1", "n -1",
    "n 1000", "s 0007", "s 1 1", "b 1", "b 1 2 3", "b 1  2", "d", "x 13", "s 1\0", "s 0x1", "S 1", "ss 0",
    "\u{e9} 1",
];

fn forms_of_lines() -> String {
    let lines = WRONG_LINES.join("\n");
    format!("{lines}\nn 2\n{lines}\nm\n{lines}")
}

fn long_lines() -> String {
    let mut input = "n 1\n".to_string();
    for length in [63, 64, 65, 66, 128, 129, 4_096, 5_000] {
        let of_zeros = format!("s {}", "0".repeat(length - 2));
        let of_prints = "m".repeat(length);
        let with_form_at_start = format!("m{}", " ".repeat(length - 1));
        let with_form_at_end = format!("{}\u{0}m", "z".repeat(length - 2));
        input += &format!("{of_zeros}\n{of_prints}\nm\n{with_form_at_start}\n{with_form_at_end}\n");
    }
    input + &"m".repeat(65)
}

/// A generated script; the seed alone decides it.
pub fn random_script(seed: u64) -> Script {
    let mut random = Random::new(seed);
    let table = choose_table(&mut random);
    let input = match Bench::new(table.as_deref().unwrap_or(&[])) {
        Ok(bench) => Writer::new(bench, &mut random).write(),
        Err(_) => b"n 2\nb 0 0\nd 0\nm\n".to_vec(),
    };
    Script {
        name: format!("seed {seed}"),
        table,
        input,
        piece: None,
    }
}

fn choose_table(random: &mut Random) -> Option<Vec<u8>> {
    match random.below(40) {
        0 => None,
        1 | 2 => Some(random_case(random.next()).file),
        3..=9 => Some(TableFile::flag().to_bytes()),
        10..=17 => Some(random_reach_table(random).to_bytes()),
        _ => Some(random_table(random).to_bytes()),
    }
}

/// How a script goes about it.
struct Style {
    lines: usize,
    longest_burst: usize,
    /// Of 100 lines, how many are refused calls or of no known form.
    odd_lines: usize,
    /// Of 100 lines, how many print.
    prints: usize,
    /// Of 100 turns, how many drive a task to its end.
    drives: usize,
    /// A bit for each task that stands still after a while.
    stopped: usize,
}

impl Style {
    fn choose(random: &mut Random) -> Style {
        Style {
            lines: *random.pick(&[10, 40, 150, 150, 400, 1_000]),
            longest_burst: *random.pick(&[1, 1, 3, 20, 60]),
            odd_lines: *random.pick(&[0, 1, 5, 30]),
            prints: *random.pick(&[2, 10, 30]),
            drives: *random.pick(&[0, 1, 5, 20]),
            stopped: random.below(1 << 8) & random.below(1 << 8),
        }
    }
}

/// Writes a script line by line and lets a bench follow, to know who has an operation pending.
struct Writer<'a> {
    bench: Bench<'a>,
    random: &'a mut Random,
    style: Style,
    input: Vec<u8>,
    lines: usize,
}

impl<'a> Writer<'a> {
    fn new(bench: Bench<'a>, random: &'a mut Random) -> Writer<'a> {
        let style = Style::choose(random);
        Writer {
            bench,
            random,
            style,
            input: Vec::new(),
            lines: 0,
        }
    }

    fn write(mut self) -> Vec<u8> {
        self.open();
        while self.lines < self.style.lines {
            self.turn();
        }
        self.close();
        self.input
    }

    fn add(&mut self, line: &str) {
        self.bench.serve(line.as_bytes());
        self.input.extend(line.as_bytes());
        self.input.push(b'\n');
        self.lines += 1;
    }

    /// Mostly a start at once; sometimes odd lines before it.
    fn open(&mut self) {
        while self.random.chance(1, 8) {
            self.odd_line();
        }
        let tasks = self.random.between(1, 8);
        self.add(&format!("n {tasks}"));
    }

    fn turn(&mut self) {
        if self.random.chance(self.style.odd_lines, 100) {
            self.odd_line();
        } else if self.random.chance(self.style.prints, 100) {
            self.add("m");
        } else if self.random.chance(1, 400) {
            let tasks = self.random.between(1, 8);
            self.add(&format!("n {tasks}"));
        } else {
            self.task_turn();
        }
    }

    /// One task begins, or makes a burst of steps, or is driven to its end. With no task the cells are printed.
    fn task_turn(&mut self) {
        let pending = self.bench.pending();
        if pending.is_empty() {
            return self.add("m");
        }
        let task = self.random.below(pending.len());
        let late = self.lines > self.style.lines / 3;
        if late && self.style.stopped >> task & 1 == 1 && pending.iter().any(|&busy| !busy) {
            return self.add("m");
        }
        if !pending[task] {
            let operation = self.random.below(self.bench.operations());
            self.add(&format!("b {task} {operation}"));
        } else if self.random.chance(self.style.drives, 100) {
            self.add(&format!("d {task}"));
        } else {
            for _ in 0..self.random.between(1, self.style.longest_burst) {
                self.add(&format!("s {task}"));
            }
        }
    }

    /// A call with any numbers, a start that is refused, or a line of no known form.
    fn odd_line(&mut self) {
        let task = *self.random.pick(&[0, 1, 2, 7, 8, 9, 255, 256, 257, 999]);
        let operation = *self.random.pick(&[0, 1, 31, 32, 255, 256, 999]);
        let line = match self.random.below(8) {
            0 => format!("s {task}"),
            1 => format!("d {task}"),
            2 => format!("b {task} {operation}"),
            3 => format!("b {} {operation}", task % 8),
            4 => format!("n {}", self.random.pick(&["0", "9", "10", "256", "999", "1000"])),
            5 => self.random.pick(&WRONG_LINES).to_string(),
            6 => self.any_line(),
            _ => {
                let length = *self.random.pick(&[64, 65, 66, 130, 5_000]);
                "m".repeat(length)
            }
        };
        self.add(&line);
    }

    /// Characters that forms are made of, in any order.
    fn any_line(&mut self) -> String {
        let length = self.random.between(1, 12);
        let characters: Vec<char> = "nbsdmx 0012 \t\r-+".chars().collect();
        (0..length).map(|_| *self.random.pick(&characters)).collect()
    }

    /// Drives some tasks to their ends, prints, and sometimes takes the last byte 10 away.
    fn close(&mut self) {
        if self.random.chance(2, 3) {
            for task in 0..self.bench.pending().len() {
                self.add(&format!("d {task}"));
            }
        }
        self.add("m");
        if self.random.chance(1, 2) {
            self.input.pop();
        }
    }
}

#[cfg(test)]
mod tests {
    use super::*;
    use crate::bench::output;
    use crate::reach_cases::moving_out_of_reach;
    use crate::trace::served_lines;
    use crate::trace_event::Event;

    #[test]
    fn the_seed_decides_a_script() {
        for seed in 0..50 {
            let (first, second) = (random_script(seed), random_script(seed));
            assert_eq!(first.table, second.table);
            assert_eq!(first.input, second.input);
        }
    }

    /// Counts the scripts whose output has the given text in it.
    fn count_with(outputs: &[String], text: &str) -> usize {
        outputs.iter().filter(|printed| printed.contains(text)).count()
    }

    #[test]
    fn scripts_bring_forth_all_answers() {
        let served = |script: Script| output(script.table.as_deref().unwrap_or(&[]), &script.input);
        let outputs: Vec<String> = (0..400).map(random_script).map(served).collect();
        for refusal in [1, 5, 7, 8, 9, 10, 13] {
            assert!(
                count_with(&outputs, &format!("x {refusal}\n")) >= 3,
                "refusal {refusal}"
            );
        }
        for refusal in [11, 12] {
            assert_eq!(count_with(&outputs, &format!("x {refusal}\n")), 0);
        }
        for tasks in 1..=8 {
            assert!(count_with(&outputs, &format!("n {tasks} ")) >= 10);
            assert!(count_with(&outputs, &format!("r {} ", tasks - 1)) >= 10);
        }
    }

    /// How many operations of a script end by kind: reading or changing, and whether the state moved.
    fn count_ends(script: &Script) -> [[usize; 2]; 2] {
        let lines = served_lines(script.table.as_deref().unwrap_or(&[]), &script.input);
        let mut changes = [false; 8];
        let mut ends = [[0; 2]; 2];
        for event in lines.unwrap_or_default().iter().flat_map(|line| &line.events) {
            match *event {
                Event::Begun { task, changing, .. } => changes[task] = changing,
                Event::Ended { task, moved, .. } => {
                    ends[usize::from(changes[task])][usize::from(moved)] += 1;
                }
                _ => {}
            }
        }
        ends
    }

    #[test]
    fn changing_operations_end_with_a_yes_and_with_a_no() {
        let ends: Vec<_> = (0..400).map(|seed| count_ends(&random_script(seed))).collect();
        let scripts_with = |changing: usize, moved: usize| {
            let with = |ends: &&[[usize; 2]; 2]| ends[changing][moved] > 0;
            ends.iter().filter(with).count()
        };
        assert!(scripts_with(1, 1) >= 100);
        assert!(scripts_with(1, 0) >= 100);
        assert_eq!(scripts_with(0, 1), 0);
    }

    /// Whether a script begins an operation that is reading though it moves some state: one that can't be reached.
    fn begins_moving_out_of_reach(script: &Script) -> bool {
        let file = script.table.as_deref().unwrap_or(&[]);
        let out_of_reach = moving_out_of_reach(file);
        let lines = served_lines(file, &script.input).unwrap_or_default();
        let mut events = lines.iter().flat_map(|line| &line.events);
        events
            .any(|event| matches!(event, Event::Begun { operation, .. } if out_of_reach.contains(operation)))
    }

    #[test]
    fn many_scripts_begin_an_operation_that_moves_only_states_out_of_reach() {
        let scripts = (0..300).map(random_script);
        let count = scripts.filter(begins_moving_out_of_reach).count();
        assert!(count >= 50, "{count}");
    }
}
