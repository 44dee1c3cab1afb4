//! The stories of consoles at their windows, compared with the second program line by line.

use crate::program::drive_on;
use crate::second_consoles::story;
use reference::random::Random;
use reference::table_cases::{fixed_cases, random_table};
use reference::table_file::TableFile;

const RANDOM_INPUTS: u64 = 250;
const EXAMPLE: &str = "examples/console.lines";

/// What is printed, which is what the second program expects.
fn compare(file: &[u8], input: &str) -> String {
    let ran = drive_on("window", file, input.as_bytes());
    match story(file, input) {
        Ok(expected) => {
            let told = ran.text();
            let wrong = told
                .lines()
                .zip(expected.lines())
                .find(|(one, other)| one != other);
            assert!(told == expected, "{input}\n{wrong:?}");
            told
        }
        Err(refused) => {
            let said = ran.failure();
            assert_eq!(said, format!("drive: the table is {refused}\n"));
            said
        }
    }
}

fn on_flag(input: &str) -> String {
    compare(&TableFile::flag().to_bytes(), input)
}

/// Writes lines as consoles and other tasks would bring them about.
struct Writer {
    random: Random,
    tasks: usize,
    operations: usize,
    input: String,
}

impl Writer {
    fn write(seed: u64) -> (Vec<u8>, String) {
        let mut random = Random::new(seed);
        let table = match random.chance(1, 4) {
            true => TableFile::flag(),
            false => random_table(&mut random),
        };
        let mut writer = Writer {
            tasks: random.between(1, 8),
            operations: usize::from(table.operations),
            random,
            input: String::new(),
        };
        if writer.random.chance(1, 8) {
            writer.odd_line();
        }
        writer.start();
        for _ in 0..writer.random.between(5, 80) {
            writer.turn();
        }
        writer.add("m".into());
        (table.to_bytes(), writer.input)
    }

    fn add(&mut self, line: String) {
        self.input += &line;
        self.input += "\n";
    }

    fn start(&mut self) {
        let tasks = self.tasks;
        self.add(format!("n {tasks}"));
    }

    /// Even tasks are consoles and odd ones call directly, mostly; some lines are odd ones.
    fn turn(&mut self) {
        let task = self.random.below(self.tasks);
        let console = (task % 2 == 0) != self.random.chance(1, 12);
        match self.random.below(60) {
            0..=3 => self.odd_line(),
            4 => self.add("m".into()),
            5 if self.random.chance(1, 8) => self.start(),
            _ if console => self.console_turn(task),
            _ => self.direct_turn(task),
        }
    }

    fn console_turn(&mut self, task: usize) {
        let operation = match self.random.chance(1, 6) {
            true => usize::from(self.random.byte()),
            false => self.random.below(self.operations),
        };
        match self.random.below(20) {
            0..=3 => {
                self.add(format!("w {task} 0 {operation}"));
                self.command(task, 1);
            }
            4..=9 => {
                for _ in 0..*self.random.pick(&[1, 1, 3, 20]) {
                    self.command(task, 2);
                }
            }
            10..=14 => self.command(task, 3),
            15 => {
                let mask = *self.random.pick(&[0, 0, 1, 1, 2, 255]);
                self.add(format!("w {task} 6 {mask}"));
            }
            16 => self.add(format!("l {task}")),
            17 => self.add(format!("c {task}")),
            18 => {
                let command = self.random.byte();
                self.command(task, command);
            }
            _ => {
                let (byte, value) = (self.random.below(8), self.random.byte());
                self.add(format!("w {task} {byte} {value}"));
            }
        }
    }

    fn command(&mut self, task: usize, command: u8) {
        self.add(format!("w {task} 1 {command}"));
        self.add(format!("c {task}"));
    }

    fn direct_turn(&mut self, task: usize) {
        let operation = self.random.below(self.operations);
        match self.random.below(6) {
            0..=1 => self.add(format!("b {task} {operation}")),
            2 => self.add(format!("d {task}")),
            _ => {
                for _ in 0..*self.random.pick(&[1, 2, 6]) {
                    self.add(format!("s {task}"));
                }
            }
        }
    }

    /// A line with any numbers, or one of no known form.
    fn odd_line(&mut self) {
        let task = *self.random.pick(&[0, 1, 7, 8, 9, 256, 999, 1000]);
        let number = *self.random.pick(&[0, 1, 7, 8, 32, 255, 256, 999]);
        let wrong = *self.random.pick(&wrong_lines());
        let line = match self.random.below(8) {
            0 => format!("c {task}"),
            1 => format!("l {task}"),
            2 => format!("w {task} {number} 1"),
            3 => format!("w {task} 1 {number}"),
            4 => format!("b {task} {number}"),
            5 => format!("d {task}"),
            6 => format!("n {}", [0, 9, 10, 999][number % 4]),
            _ => wrong.to_string(),
        };
        self.add(line);
    }
}

/// Lines of no known form.
fn wrong_lines() -> Vec<&'static str> {
    "| |w|w 0|w 0 0|w 0 0 0 0|w 0 8 0|w 0 0 256|w 0 0 0001|w  0 0 0|w 0 0 0 |w 0 -1 0|w 0 0 0x1|W 0 0 0|\
     c|c |c 0 0| c 0|C 0|c 0000|c -1|l|l |l 0 0| l 0|L 0|l 0000|x 0"
        .split('|')
        .collect()
}

/// What must occur in the stories: a line with both texts, so many times.
const OCCUR: [(&str, &str, usize); 22] = [
    ("  window call of ", ": refused with 8: ", 50),
    ("  window call of ", ": refused with 9: ", 50),
    ("  window call of ", ": refused with 10: ", 50),
    ("  window call of ", ": refused with 17: ", 50),
    ("  window call of ", ": refused with 18: ", 50),
    ("  refused with 5: ", "", 20),
    ("  refused with 7: ", "", 20),
    ("  refused with 13: ", "", 20),
    ("  line ", " refused with 7: ", 20),
    ("  window ", "  busy -    -       -      ", 1_000),
    ("  window ", "  -    done -       moved  ", 20),
    ("  window ", "  -    done refused -      ", 20),
    (" up    ", "  interrupt waits  not masked", 1_000),
    (" down    ", "  interrupt waits  masked", 1_000),
    (" down    ", "  no interrupt     not masked", 1_000),
    (" ends operation ", ", not moved, ", 100),
    (" ends operation ", ", moved, ", 100),
    ("  at rest in state ", "", 100),
    ("  it follows: the operations made so far lead to state ", "", 250),
    ("  it follows: task ", " pending: announced", 210),
    ("  it follows: task ", " pending: answered", 40),
    ("  no trace of task", " idle, reading, or changing", 250),
];

/// How many lines hold both texts.
fn lines_with(told: &[String], one: &str, other: &str) -> usize {
    let lines = told.iter().flat_map(|told| told.lines());
    lines
        .filter(|line| line.contains(one) && line.contains(other))
        .count()
}

#[test]
fn windows_are_those_of_the_second_program() {
    let inputs = (0..RANDOM_INPUTS).map(Writer::write);
    let told: Vec<String> = inputs.map(|(file, input)| compare(&file, &input)).collect();
    for (one, other, least) in OCCUR {
        let found = lines_with(&told, one, other);
        assert!(found >= least, "{found} lines with '{one}' and '{other}'");
    }
}

#[test]
fn the_example_shows_a_console_at_work() {
    let input = std::fs::read_to_string(EXAMPLE).expect("the example");
    let told = [on_flag(&input)];
    for (call, answer) in [
        ("command 1, begin", "served"),
        ("command 2, step", "served"),
        ("command 3, acknowledge", "served"),
        ("command 0, nothing", "served"),
        ("command 2, step", "refused with 10: "),
        ("command 1, begin", "refused with 17: "),
        ("command 9", "refused with 18: "),
    ] {
        let call = format!("  window call of task 0, {call}: {answer}");
        assert!(lines_with(&told, &call, "") > 0, "{call}");
    }
    for part in [
        "task 0 ends operation 2: response 1, moved, own steps 4",
        "task 1 ends ",
    ] {
        assert!(lines_with(&told, part, "") > 0, "{part}");
    }
    assert!(lines_with(&told, "  line 0    up ", "interrupt waits") > 0);
    assert!(lines_with(&told, "  line 0    down ", "interrupt waits  masked") > 0);
}

/// What the page shows below the name of the example.
#[test]
fn the_page_has_a_part_of_the_example() {
    let page = std::fs::read_to_string("README.md").expect("the page");
    let (_, after) = page.split_once(EXAMPLE).expect("the example's name");
    let block = after.lines().skip_while(|line| !line.starts_with("    > "));
    let shown: Vec<&str> = block.map_while(|line| line.strip_prefix("    ")).collect();
    let input = std::fs::read_to_string(EXAMPLE).expect("the example");
    assert!(on_flag(&input).contains(&shown.join("\n")), "{shown:?}");
    assert_eq!(shown.len(), 13);
}

#[test]
fn every_value_of_every_byte_is_told() {
    for byte in 0..8 {
        let write = |value: usize| format!("w 1 {byte} {value}\n");
        let lines: String = (0..=255).map(write).collect();
        on_flag(&format!("n 2\n{lines}m\n"));
    }
}

#[test]
fn every_command_and_every_operation_is_told() {
    let command = |value: usize| format!("w 0 1 {value}\nc 0\n");
    let operation = |value: usize| format!("w 0 0 {value}\nw 0 1 1\nc 0\n");
    for start in [
        "n 1\n",
        "n 1\nw 0 2 255\nw 0 5 255\n",
        "n 1\nw 0 2 2\n",
        "n 1\nb 0 1\n",
    ] {
        let commands: String = (0..=255).map(command).collect();
        on_flag(&format!("{start}{commands}"));
        let operations: String = (0..=255).map(operation).collect();
        on_flag(&format!("{start}{operations}"));
    }
}

#[test]
fn a_window_call_and_a_direct_call_of_one_task_meet() {
    let busy = "n 1\nw 0 0 1\nw 0 1 1\nc 0\n";
    on_flag(&format!("{busy}d 0\nw 0 1 2\nc 0\n"));
    on_flag(&format!("{busy}b 0 0\ns 0\nw 0 1 2\nc 0\nd 0\nm\n"));
    on_flag("n 1\nb 0 0\nw 0 1 2\nc 0\nb 0 0\nw 0 1 1\nc 0\n");
}

#[test]
fn every_start_that_is_accepted_gives_new_windows() {
    let written = "n 2\nw 0 0 1\nw 0 1 1\nc 0\nw 1 7 255\n";
    let left = "  01 00 01 00 00 00 00 00  ";
    let kept = on_flag(&format!("{written}n 0\nn 9\nn 999\nm\n"));
    assert_eq!(kept.matches(left).count(), 2);
    for tasks in 1..=8 {
        let fresh = on_flag(&format!("{written}n {tasks}\nm\n"));
        assert_eq!(fresh.matches(left).count(), 1);
        assert_eq!(fresh.matches("  window 0  00 00 00 00 00 00 00 00  ").count(), 1);
    }
}

#[test]
fn lines_of_no_known_form_and_lines_before_a_run_are_refused() {
    let wrong = wrong_lines().join("\n");
    let told = on_flag(&format!("w 0 0 0\nc 0\nl 0\nm\n{wrong}\n"));
    let lines = 4 + wrong_lines().len();
    assert_eq!(told.matches("\n  refused with 13: ").count(), lines);
    on_flag(&format!("n 1\n{wrong}\nm\n"));
    for length in [63, 64, 65, 200] {
        let padded = "0".repeat(length - 2);
        let told = on_flag(&format!("n 1\nc {padded}\n"));
        assert_eq!(told.contains("..."), length > 64);
    }
}

#[test]
fn a_table_that_is_refused_has_no_story() {
    for case in fixed_cases().iter().step_by(3) {
        compare(&case.file, "n 1\nw 0 1 2\nc 0\n");
    }
}

#[test]
fn a_last_line_may_lack_its_end() {
    assert_eq!(on_flag("n 1\nw 0 1 2\nc 0"), on_flag("n 1\nw 0 1 2\nc 0\n"));
    assert_eq!(on_flag(""), "");
}
