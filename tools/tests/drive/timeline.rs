//! Where things stand in the drawing of a run: marks, bars, bands, stretches and labels, column by column, compared with the
//! second program's run.

use std::collections::BTreeSet;

use crate::drawing::{Picture, Row};
use crate::program::drive_on;
use crate::second_run::{runs, Operation, Run, BARS, REST, STRETCHES};
use reference::script_cases::random_script;

const SCRIPTS: u64 = 200;
const LONGEST_ROW: usize = 100;

/// The width of a letter of the small labels, at least.
const SMALL_LETTER: f64 = 5.4;

/// A row of a picture, and the calls of a run that it shows: those from `first` on.
struct Shown<'a> {
    picture: &'a Picture,
    row: &'a Row,
    run: &'a Run,
    first: usize,
}

impl Shown<'_> {
    fn calls(&self) -> usize {
        self.row.calls.len()
    }

    /// So many columns from the left edge.
    fn x(&self, columns: f64) -> f64 {
        self.row.edges.0 + self.row.width() * columns
    }

    fn task_line(&self, task: usize) -> f64 {
        self.row.lanes[task].1
    }

    fn cell_line(&self, cell: usize) -> f64 {
        self.row.lanes[self.run.tasks + cell].1
    }

    fn compare(&self) {
        self.lanes();
        self.marks();
        self.points();
        self.operation_labels();
        for cell in 0..=self.run.tasks {
            self.cell_labels(cell);
        }
        self.ruler();
    }

    fn lanes(&self) {
        let tasks = (0..self.run.tasks).map(|task| format!("task {task}"));
        let announcements = (0..self.run.tasks).map(|task| format!("announcement {task}"));
        let expected: Vec<String> = tasks.chain(["head".into()]).chain(announcements).collect();
        let names: Vec<&String> = self.row.lanes.iter().map(|(name, _)| name).collect();
        assert_eq!(names, expected.iter().collect::<Vec<_>>());
    }

    /// Every call is marked in its column, on the lanes of its task and its cell; the bars are those of the operations.
    fn marks(&self) {
        for (at, (call, x)) in self.row.calls.iter().enumerate() {
            let number = self.first + at;
            assert_eq!(*call, self.run.calls[number]);
            assert!((x - self.x(at as f64 + 0.5)).abs() < 0.2, "call {number}");
            for task in 0..self.run.tasks {
                let found = self.picture.colour(*x, self.task_line(task), &BARS);
                assert_eq!(found, self.run.bar(task, number), "task {task}, call {number}");
            }
        }
    }

    /// To the left and to the right of a point stands whether it is one of rest, and what the cells hold.
    fn points(&self) {
        for at in 0..=self.calls() {
            let point = self.first + at;
            let sides = [(at > 0, -0.25), (at < self.calls(), 0.25)];
            for (_, side) in sides.iter().filter(|(there, _)| *there) {
                let x = self.x(at as f64 + side);
                let rest = self.picture.colour(x, self.cell_line(0) - 12.0, &[REST]);
                assert_eq!(rest.is_some(), self.run.points[point].1, "point {point}");
                for cell in 0..=self.run.tasks {
                    let found = self.picture.colour(x, self.cell_line(cell), &STRETCHES);
                    let expected = self.run.stretch(cell, point).map(|(fill, _)| fill);
                    assert_eq!(found, expected, "cell {cell}, point {point}");
                }
            }
        }
    }

    /// Every operation is named at the left end of its bar, with what it answers, as far as there is room before the next.
    fn operation_labels(&self) {
        let end = self.first + self.calls();
        for operation in &self.run.operations {
            let column = operation.columns.0.max(self.first);
            if column >= operation.columns.1.min(end) {
                continue;
            }
            let later =
                |other: &&Operation| other.task == operation.task && other.columns.0 > operation.columns.0;
            let next = self
                .run
                .operations
                .iter()
                .find(later)
                .map_or(end, |other| other.columns.0.min(end));
            let room = self.row.width() * (next - column) as f64;
            let place = (
                self.x((column - self.first) as f64),
                self.task_line(operation.task) - 10.0,
            );
            let answer = format!("\u{2192}{}", operation.answer());
            match self.picture.label(place.0, place.1) {
                Some(label) => {
                    let label = label.replace("operation ", "").replace(' ', "");
                    assert!(
                        label == answer || label == format!("{}{answer}", operation.number),
                        "{label}"
                    );
                }
                None => assert!(
                    room < SMALL_LETTER * answer.chars().count() as f64,
                    "{answer} has room"
                ),
            }
        }
    }

    /// Every label of a cell says what stands there, and every stretch of four columns has one.
    fn cell_labels(&self, cell: usize) {
        let mut from = 0;
        for at in 1..=self.calls() {
            let stretch = |at: usize| self.run.stretch(cell, self.first + at);
            if at < self.calls() && stretch(at) == stretch(from) {
                continue;
            }
            let edge = if from == 0 { 0.0 } else { from as f64 - 0.5 };
            let label = self.picture.label(self.x(edge), self.cell_line(cell) - 8.5);
            match stretch(from).map(|(_, said)| said) {
                Some(said) if at - from >= 4 => assert_eq!(label, Some(said.as_str()), "cell {cell}"),
                Some(said) => assert!(label.is_none_or(|label| label == said), "cell {cell}"),
                None => assert_eq!(label, None, "cell {cell}"),
            }
            from = at;
        }
    }

    /// The tenth call, the twentieth and so on have their numbers above the lanes.
    fn ruler(&self) {
        let top = self.task_line(0);
        let numbers = self
            .picture
            .labels
            .iter()
            .filter(|label| label.y < top - 20.0 && label.y > top - 40.0);
        let found: Vec<(usize, i64)> = numbers
            .map(|label| (label.text.parse().expect("a number"), label.x as i64))
            .collect();
        let tens = (self.first + 1..=self.first + self.calls()).filter(|number| number % 10 == 0);
        let expected = tens.map(|number| (number, self.x((number - self.first) as f64 - 0.5) as i64));
        let near =
            |one: &(usize, i64), other: &(usize, i64)| one.0 == other.0 && (one.1 - other.1).abs() <= 1;
        let expected: Vec<(usize, i64)> = expected.collect();
        assert!(
            found.len() == expected.len() && found.iter().zip(&expected).all(|(one, other)| near(one, other))
        );
    }
}

/// Rows stand below each other, above the legend, and in the picture.
fn stacked(picture: &Picture) {
    let lanes = picture.rows.iter().flat_map(|row| &row.lanes);
    let lines: Vec<f64> = lanes.map(|(_, line)| *line).collect();
    assert!(lines.windows(2).all(|pair| pair[0] + 20.0 < pair[1]));
    assert!(lines[lines.len() - 1] + 10.0 < picture.legend && picture.legend < picture.height);
}

/// Compares all rows; how many of the runs take more than one.
fn compare(picture: &Picture, runs: &[Run]) -> usize {
    stacked(picture);
    let mut rows = picture.rows.iter();
    let mut long = 0;
    for (at, run) in runs.iter().enumerate() {
        let (tasks, calls) = (run.tasks, run.calls.len());
        let title = format!(
            "Run {}, tasks: {tasks}, accepted calls of begin and step: {calls}",
            at + 1
        );
        assert_eq!(picture.titles[at], title);
        let mut first = 0;
        loop {
            let row = rows.next().expect("a row");
            assert!(row.calls.len() <= LONGEST_ROW);
            Shown {
                picture,
                row,
                run,
                first,
            }
            .compare();
            first += row.calls.len();
            if first >= run.calls.len() {
                break;
            }
        }
        long += usize::from(run.calls.len() > LONGEST_ROW);
    }
    assert!(rows.next().is_none());
    long
}

/// The colours of all bars and stretches of a run.
fn colours(run: &Run) -> impl Iterator<Item = &'static str> + '_ {
    let bars =
        (0..run.calls.len()).flat_map(move |at| (0..run.tasks).filter_map(move |task| run.bar(task, at)));
    let stretches = (0..run.points.len())
        .flat_map(move |at| (0..=run.tasks).filter_map(move |cell| run.stretch(cell, at)))
        .map(|(fill, _)| fill);
    bars.chain(stretches)
}

#[test]
fn everything_stands_where_the_second_program_has_it() {
    let (mut compared, mut long) = (0, 0);
    let mut seen = BTreeSet::new();
    for seed in 0..SCRIPTS {
        let script = random_script(seed);
        let table = script.table.unwrap_or_default();
        let runs = runs(&table, &script.input);
        if runs.is_empty() {
            continue;
        }
        let picture = drive_on("picture", &table, &script.input).text();
        long += compare(&Picture::of(&picture), &runs);
        compared += runs.len();
        seen.extend(runs.iter().flat_map(colours));
    }
    assert_eq!(seen, BTreeSet::from_iter([BARS, STRETCHES].concat()));
    assert!(compared > 150 && long > 20, "{compared} {long}");
}
