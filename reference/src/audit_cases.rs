//! Scripts for the auditor: busy interleavings of one to eight tasks, with a print after every line.

use crate::bench::Bench;
use crate::configuration::Configuration;
use crate::desk::{ring_table, ORDINARY};
use crate::objects::explored_files;
use crate::phase::Phase;
use crate::random::Random;
use crate::reach_cases::random_reach_table;
use crate::script_cases::Script;
use crate::table_cases::random_table;
use crate::table_file::TableFile;

/// A generated script; the seed alone decides it.
pub fn audit_script(seed: u64) -> Script {
    let mut random = Random::new(seed);
    let table = choose_table(&mut random);
    let bench = Bench::new(&table).expect("the tables are served");
    let input = write_lines(bench, &mut random);
    Script {
        name: format!("seed {seed}"),
        table: Some(table),
        input,
        piece: None,
    }
}

/// The flag, counters and other small objects, drives of some rings, objects with spare states, and any others.
fn choose_table(random: &mut Random) -> Vec<u8> {
    let rings = random.between(1, 9);
    match random.below(8) {
        0 | 1 => TableFile::flag().to_bytes(),
        2 => random.pick(&explored_files()).to_bytes(),
        3 => ring_table(&[1, ORDINARY].repeat(rings)).expect("the rings are in range"),
        4 => TableFile::spare_state().to_bytes(),
        5 | 6 => random_reach_table(random).to_bytes(),
        _ => random_table(random).to_bytes(),
    }
}

/// Lines for a bench, which follows, so that it is known what is pending.
pub fn write_lines(bench: Bench, random: &mut Random) -> Vec<u8> {
    let style = Style::choose(random);
    let writer = Writer {
        bench,
        random,
        style,
        input: Vec::new(),
        lines: 0,
        burst: 0,
        favourite: 0,
    };
    writer.write()
}

/// How a script goes about it.
struct Style {
    lines: usize,
    longest_burst: usize,
    /// Of 100 lines, how many are refused.
    refused: usize,
    /// Of 100 turns of a busy task, how many drive it to its end.
    drives: usize,
    /// Of 100 turns of an idle or a reading task, how many it lets pass.
    passes: usize,
    /// Of 100 begins, how many are of any operation and not of a changing one.
    any_operation: usize,
    /// Of 100 turns of a slow task in a slow phase, how many it lets pass.
    slowness: usize,
    slow_phases: [u8; 2],
    /// A bit for each slow task.
    slow_tasks: usize,
    /// Of 100 turns of a late helper, how many it lets pass.
    lateness: usize,
}

impl Style {
    fn choose(random: &mut Random) -> Style {
        Style {
            lines: *random.pick(&[60, 120, 200, 400]),
            longest_burst: *random.pick(&[1, 2, 6, 20]),
            refused: *random.pick(&[2, 5, 15]),
            drives: *random.pick(&[0, 1, 3]),
            passes: *random.pick(&[0, 60, 90]),
            any_operation: *random.pick(&[10, 30, 100]),
            slowness: *random.pick(&[0, 90, 97]),
            slow_phases: [0; 2].map(|_| *random.pick(&SLOW_PHASES)),
            slow_tasks: random.below(1 << 8),
            lateness: *random.pick(&[0, 0, 95]),
        }
    }

    /// Of 100 turns of a busy task, how many it lets pass; a phase counts by its range.
    fn passes_of_busy(&self, point: &Configuration, task: usize) -> usize {
        let phase = point.record(task).phase;
        let first = if phase < 16 { phase } else { phase / 8 * 8 };
        let slow = self.slow_tasks >> task & 1 == 1 && self.slow_phases.contains(&first);
        let late = is_late_helper(point, task);
        (self.slowness * usize::from(slow)).max(self.lateness * usize::from(late))
    }
}

/// Phases in which it matters who comes first, some of them twice: Poll, LoadHead, LinkHead, LoadExit, ClearHead, and the
/// ranges of LoadHelped, LinkHelped, Validate and Release.
const SLOW_PHASES: [u8; 12] = [3, 4, 4, 5, 8, 13, 32, 32, 40, 48, 72, 72];

/// A helper of another task that looks at the announcement only when it is empty, and leaves its mark there for a while.
fn is_late_helper(point: &Configuration, task: usize) -> bool {
    match point.record(task).known_phase() {
        Phase::LoadHelped(other) => other != task && !point.is_empty(other),
        Phase::Release(other) => point.is_empty(other),
        _ => false,
    }
}

struct Writer<'a> {
    bench: Bench<'a>,
    random: &'a mut Random,
    style: Style,
    input: Vec<u8>,
    lines: usize,
    /// How many more turns the favourite has.
    burst: usize,
    favourite: usize,
}

impl Writer<'_> {
    fn write(mut self) -> Vec<u8> {
        while self.random.chance(1, 6) {
            self.refused_line();
        }
        self.start();
        while self.lines < self.style.lines {
            if self.random.chance(self.style.refused, 100) {
                self.refused_line();
            } else if self.random.chance(1, 200) {
                self.start();
            } else {
                self.turn();
            }
        }
        if self.random.chance(1, 3) {
            (0..self.bench.pending().len()).for_each(|task| self.add(&format!("d {task}")));
        }
        self.input
    }

    /// A line and its print.
    fn add(&mut self, line: &str) {
        self.bench.serve(line.as_bytes());
        self.input.extend(line.as_bytes());
        self.input.extend(b"\nm\n");
        self.lines += 1;
    }

    /// Mostly two to four tasks.
    fn start(&mut self) {
        let tasks = match self.random.chance(1, 2) {
            true => self.random.between(2, 4),
            false => self.random.between(1, 8),
        };
        self.add(&format!("n {tasks}"));
    }

    /// A busy task steps, mostly one step; an idle one begins, and a reading one ends, or lets its turn pass.
    fn turn(&mut self) {
        let task = self.choose_task();
        let table = self.bench.table();
        let point = self.bench.point().expect("the run is started");
        let busy = point.has_changing_pending(&table, task);
        let passes = match busy {
            true => self.style.passes_of_busy(&point, task),
            false => self.style.passes,
        };
        if self.random.chance(passes, 100) {
            self.burst = 0;
        } else if busy && self.random.chance(self.style.drives, 100) {
            self.add(&format!("d {task}"));
        } else if point.record(task).is_pending() {
            self.add(&format!("s {task}"));
        } else {
            let operation = self.choose_operation();
            self.add(&format!("b {task} {operation}"));
        }
    }

    fn choose_task(&mut self) -> usize {
        if self.burst == 0 || self.favourite >= self.bench.pending().len() {
            self.favourite = self.random.below(self.bench.pending().len());
            self.burst = self.random.between(1, self.style.longest_burst);
        }
        self.burst -= 1;
        self.favourite
    }

    fn choose_operation(&mut self) -> usize {
        let table = self.bench.table();
        let changing: Vec<usize> = (0..table.operations)
            .filter(|&operation| table.is_changing(operation))
            .collect();
        match changing.is_empty() || self.random.chance(self.style.any_operation, 100) {
            true => self.random.below(table.operations),
            false => *self.random.pick(&changing),
        }
    }

    /// A call or a start that is refused, if the run is as it mostly is, or a line of no known form.
    fn refused_line(&mut self) {
        let tasks = self.bench.pending().len();
        let operations = self.bench.operations();
        let task = self.random.below(tasks + 1);
        let line = match self.random.below(8) {
            0 => format!("b {} 0", self.random.between(tasks, 9)),
            1 => format!("s {}", self.random.between(tasks, 9)),
            2 => format!("d {}", self.random.between(tasks, 255)),
            3 => format!("b {task} {}", operations + self.random.below(2)),
            4 => format!("b {task} 0"),
            5 => format!("s {task}"),
            6 => format!("n {}", self.random.pick(&[0, 9, 256])),
            _ => self
                .random
                .pick(&["", "M", "m ", "b 0", "s 0 0", "n 1000", "x 7"])
                .to_string(),
        };
        self.add(&line);
    }
}

#[cfg(test)]
mod tests {
    use super::*;
    use crate::audit::{audit, Seen};
    use crate::bench::output;
    use crate::printed::part;
    use crate::reach_cases::moves_unreachable_alone;

    fn scripts() -> impl Iterator<Item = (Script, String)> {
        (0..100).map(audit_script).map(|script| {
            let printed = output(script.table.as_deref().unwrap_or(&[]), &script.input);
            (script, printed)
        })
    }

    #[test]
    fn the_seed_decides_a_script() {
        for seed in 0..20 {
            let (first, second) = (audit_script(seed), audit_script(seed));
            assert_eq!((first.table, first.input), (second.table, second.input));
        }
    }

    /// Of the prints of 100 scripts many show each of what is counted.
    #[test]
    fn the_prints_show_all_that_is_counted() {
        let mut all = Seen::default();
        for (script, printed) in scripts() {
            let parted = part(&script.input, &printed).unwrap();
            all.add(audit(script.table.as_deref().unwrap_or(&[]), &parted).unwrap());
        }
        let Seen {
            prints,
            with_holder,
            quiet_beside_busy,
            empty_with_mark,
            with_reader,
        } = all;
        assert!(prints > 15_000, "{prints}");
        assert!(with_holder > 5_000 && quiet_beside_busy > 5_000, "{all:?}");
        assert!(empty_with_mark > 100 && with_reader > 2_000, "{all:?}");
    }

    #[test]
    fn the_scripts_bring_forth_all_numbers_of_tasks_refusals_drives_and_restarts() {
        let all: Vec<(Script, String)> = scripts().collect();
        let printing = |text: String| all.iter().filter(|(_, printed)| printed.contains(&text)).count();
        for number in [5, 7, 8, 9, 10, 13] {
            assert!(printing(format!("x {number}\n")) >= 10, "refusal {number}");
        }
        for tasks in 1..=8 {
            assert!(printing(format!("n {tasks} ")) >= 3, "{tasks} tasks");
        }
        let counts = all.iter().map(|(script, _)| {
            let input = String::from_utf8_lossy(&script.input).to_string();
            let count = |start: &str| input.lines().filter(|line| line.starts_with(start)).count();
            (count("n "), count("d "), count("s "))
        });
        let (starts, drives, steps) = counts.fold((0, 0, 0), |all, one| {
            (all.0 + one.0, all.1 + one.1, all.2 + one.2)
        });
        assert!(
            starts >= 150 && drives >= 100 && steps >= 10_000,
            "{starts}, {drives}, {steps}"
        );
        let spare = |script: &Script| moves_unreachable_alone(script.table.as_deref().unwrap_or(&[]));
        assert!(all.iter().filter(|(script, _)| spare(script)).count() >= 20);
    }
}
