//! A row of a timeline: the lanes of tasks and cells over some columns.

use std::ops::Range;

use crate::legend::{
    draw_mark, CHANGING, CHANGING_MOVED, FREE, READING, RESPONSE, RESPONSE_MOVED, REST, STOPPED, WAITING,
};
use crate::names::Names;
use crate::narrative::step_line;
use crate::reply::Reply;
use crate::session::Step;
use crate::svg::{width_of, Anchor, Drawing};
use crate::timeline::{Call, Operation, Run};
use crate::word::{cell_name, content, held, state, Content};

pub const PICTURE_WIDTH: f64 = 1050.0;

pub const LEFT: f64 = 125.0;
const LANES_WIDTH: f64 = 910.0;
const WIDEST_COLUMN: f64 = 20.0;
const RULER: f64 = 16.0;
const TASK_LANE: f64 = 30.0;
const CELL_LANE: f64 = 26.0;
/// From the top of a lane to its line.
const TASK_LINE: f64 = 19.0;
const CELL_LINE: f64 = 17.0;
/// Half the height of an operation's bar, and of a cell's stretch.
const BAR: f64 = 7.0;
const STRETCH: f64 = 6.0;
const BETWEEN: f64 = 8.0;
const BELOW: f64 = 18.0;
const SMALL: f64 = 9.0;

/// The names by which states and operations are labelled.
pub struct Labels {
    pub states: Names,
    pub operations: Names,
}

/// Some columns of a run, and where they are drawn.
pub struct Row<'a> {
    run: &'a Run,
    columns: Range<usize>,
    top: f64,
    step: f64,
}

/// The most columns in a row.
const MOST_COLUMNS: usize = 100;

/// The columns of a run in rows of about the same length.
pub fn rows(run: &Run) -> impl Iterator<Item = Range<usize>> {
    let calls = run.columns.len().max(1);
    let each = calls.div_ceil(calls.div_ceil(MOST_COLUMNS));
    let last = run.columns.len();
    (0..calls)
        .step_by(each)
        .map(move |first| first..last.min(first + each))
}

impl Row<'_> {
    pub fn new(run: &Run, columns: Range<usize>, top: f64) -> Row<'_> {
        let longest = rows(run).map(|columns| columns.len()).max().unwrap_or(0).max(1);
        let step = (LANES_WIDTH / longest as f64).min(WIDEST_COLUMN);
        Row {
            run,
            columns,
            top,
            step,
        }
    }

    pub fn height(&self) -> f64 {
        self.bottom() - self.top + BELOW
    }

    fn bottom(&self) -> f64 {
        self.cell_top(self.run.tasks + 1)
    }

    fn task_top(&self, task: usize) -> f64 {
        self.top + RULER + TASK_LANE * task as f64
    }

    fn cell_top(&self, cell: usize) -> f64 {
        self.task_top(self.run.tasks) + BETWEEN + CELL_LANE * cell as f64
    }

    fn task_line(&self, task: usize) -> f64 {
        self.task_top(task) + TASK_LINE
    }

    fn cell_line(&self, cell: usize) -> f64 {
        self.cell_top(cell) + CELL_LINE
    }

    /// The left edge of a column; a point stands at the left edge of the column after it.
    fn x(&self, column: usize) -> f64 {
        LEFT + self.step * (column - self.columns.start) as f64
    }

    fn middle(&self, column: usize) -> f64 {
        self.x(column) + self.step / 2.0
    }
}

pub fn draw_row(drawing: &mut Drawing, row: &Row, labels: &Labels) {
    draw_rest(drawing, row);
    draw_lanes(drawing, row);
    for operation in &row.run.operations {
        draw_operation(drawing, row, operation, labels);
    }
    for cell in 0..=row.run.tasks {
        draw_content(drawing, row, cell, labels);
    }
    for column in row.columns.clone() {
        match &row.run.columns[column].call {
            Call::Step(step) => draw_step(drawing, row, column, step),
            Call::Begin(task) => {
                let y = row.task_line(*task);
                drawing.line(
                    (row.middle(column), y - BAR),
                    (row.middle(column), y + BAR),
                    "#555",
                    2.0,
                );
            }
        }
    }
}

/// A band around every point of rest; the first point of a run is one.
fn draw_rest(drawing: &mut Drawing, row: &Row) {
    let top = row.top + RULER - 4.0;
    let height = row.bottom() - top + 4.0;
    for point in row.columns.start..=row.columns.end {
        let rests = point
            .checked_sub(1)
            .is_none_or(|before| row.run.columns[before].rest);
        if rests {
            let left = (row.x(point) - row.step / 2.0).max(LEFT - 5.0);
            let right = (row.x(point) + row.step / 2.0).min(row.x(row.columns.end) + 5.0);
            drawing.rectangle((left, top), (right - left, height), REST);
        }
    }
}

/// Names of the lanes, their lines, and the number of every tenth call.
fn draw_lanes(drawing: &mut Drawing, row: &Row) {
    let right = row.x(row.columns.end);
    for task in 0..row.run.tasks {
        let y = row.task_line(task);
        drawing.text((LEFT - 10.0, y + 4.0), 12.0, Anchor::End, &format!("task {task}"));
        drawing.line((LEFT, y), (right, y), "#cccccc", 1.0);
    }
    for cell in 0..=row.run.tasks {
        let y = row.cell_line(cell);
        drawing.text((LEFT - 10.0, y + 4.0), 12.0, Anchor::End, &cell_name(cell));
        drawing.line((LEFT, y), (right, y), "#cccccc", 1.0);
    }
    for column in row.columns.clone().filter(|column| (column + 1) % 10 == 0) {
        let number = (column + 1).to_string();
        drawing.text(
            (row.middle(column), row.top + 9.0),
            SMALL,
            Anchor::Middle,
            &number,
        );
    }
}

/// The bar of an operation as far as it lies in the row, pale after the last call for a task that never ends it, and what
/// it answers.
fn draw_operation(drawing: &mut Drawing, row: &Row, operation: &Operation, labels: &Labels) {
    let last = operation
        .ended
        .map_or(row.run.columns.len(), |(column, _)| column + 1);
    let (first, last) = (operation.first.max(row.columns.start), last.min(row.columns.end));
    if first >= last {
        return;
    }
    let called = last.min(row.run.last_call(operation.task) + 1).max(first);
    for (from, to, fill) in [(first, called, bar_colour(operation)), (called, last, STOPPED)] {
        if from == to {
            continue;
        }
        let corner = (row.x(from), row.task_line(operation.task) - BAR);
        drawing.rectangle(corner, (row.x(to) - row.x(from), 2.0 * BAR), fill);
    }
    let next = row.run.next_begin(operation).min(row.columns.end);
    if let Some(label) = labels.operation(operation, row.x(next) - row.x(first)) {
        let place = (row.x(first), row.task_top(operation.task) + 9.0);
        drawing.text(place, SMALL, Anchor::Start, &label);
    }
}

fn bar_colour(operation: &Operation) -> &'static str {
    match operation.ended {
        _ if !operation.changing => READING,
        Some((_, Reply { moved: true, .. })) => CHANGING_MOVED,
        _ => CHANGING,
    }
}

impl Labels {
    /// An operation and what it answers, or the answer alone, or nothing: the longest that there is room for.
    fn operation(&self, operation: &Operation, room: f64) -> Option<String> {
        let name = self.operations.of(operation.number);
        let answer = operation
            .ended
            .map_or("pending".into(), |(_, reply)| reply.response.to_string());
        let long = match self.operations.any() {
            true => format!("{name} \u{2192} {answer}"),
            false => format!("operation {name} \u{2192} {answer}"),
        };
        let labels = [
            long,
            format!("{name}\u{2192}{answer}"),
            format!("\u{2192}{answer}"),
        ];
        labels.into_iter().find(|label| width_of(label, SMALL) <= room)
    }
}

/// What a cell says from column to column: stretches of one colour, with a label where it has room. A word stands from the
/// middle of the column that wrote it to the middle of the one that replaces it.
fn draw_content(drawing: &mut Drawing, row: &Row, cell: usize, labels: &Labels) {
    let mut word = if cell == 0 { row.run.state << 8 } else { 0 };
    let mut left = row.x(row.columns.start);
    for (column, call) in row.run.columns.iter().enumerate().take(row.columns.end) {
        let Call::Step(step) = &call.call else { continue };
        if step.planned.cell != cell || said(cell, step.after, labels) == said(cell, word, labels) {
            continue;
        }
        if row.columns.contains(&column) {
            let right = row.middle(column);
            draw_stretch(drawing, row, cell, (left, right), said(cell, word, labels));
            left = right;
        }
        word = step.after;
    }
    let right = row.x(row.columns.end);
    draw_stretch(drawing, row, cell, (left, right), said(cell, word, labels));
}

/// Colour and label of a cell's word; none for an empty announcement.
fn said(cell: usize, word: u64, labels: &Labels) -> Option<(&'static str, String)> {
    match (cell, content(word)) {
        (0, _) => {
            let fill = held(word).map_or(FREE, |(_, reply)| response_colour(reply));
            Some((fill, labels.states.of(state(word) as usize)))
        }
        (_, Content::Empty) => None,
        (_, Content::Operation(operation)) => Some((WAITING, labels.operations.of(operation as usize))),
        (_, Content::Response(reply)) => Some((response_colour(reply), reply.response.to_string())),
    }
}

fn response_colour(reply: Reply) -> &'static str {
    match reply.moved {
        true => RESPONSE_MOVED,
        false => RESPONSE,
    }
}

fn draw_stretch(
    drawing: &mut Drawing,
    row: &Row,
    cell: usize,
    (left, right): (f64, f64),
    said: Option<(&'static str, String)>,
) {
    let Some((fill, label)) = said else { return };
    let corner = (left, row.cell_line(cell) - STRETCH);
    drawing.rectangle(corner, (right - left, 2.0 * STRETCH), fill);
    if width_of(&label, SMALL) <= right - left {
        drawing.text((left, row.cell_top(cell) + 8.5), SMALL, Anchor::Start, &label);
    }
}

/// A mark on the task's lane and one on the cell's.
fn draw_step(drawing: &mut Drawing, row: &Row, column: usize, step: &Step) {
    let x = row.middle(column);
    let from = (x, row.task_line(step.task));
    let to = (x, row.cell_line(step.planned.cell));
    drawing.line(from, to, "#dddddd", 0.6);
    let title = step_line(step);
    for place in [from, to] {
        draw_mark(drawing, place, step.planned.purpose, step.failed(), &title);
    }
}
