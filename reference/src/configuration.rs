//! A point of a run: all cells and all records; and the calls that lead from one to the next.

use crate::cells::{has_mark, image, kind, Announcement, Head, Holder, MOST_TASKS};
use crate::machine::{announcement_cell, Answer, HEAD_CELL};
use crate::record::Record;
use crate::refusal::Refusal;
use crate::rules::Rules;
use crate::table::Table;

#[derive(Clone, Copy, Debug, PartialEq, Eq)]
pub struct Configuration {
    pub tasks: usize,
    all_cells: [u64; MOST_TASKS + 1],
    all_records: [Record; MOST_TASKS],
}

#[derive(Clone, Copy, Debug, PartialEq, Eq)]
pub enum Call {
    Begin { task: usize, operation: usize },
    Step { task: usize },
}

/// The answer of a call: nothing for an accepted begin.
pub type CallAnswer = Result<Option<Answer>, Refusal>;

impl Configuration {
    pub fn started(table: &Table, tasks: usize) -> Result<Configuration, Refusal> {
        Configuration::started_by(Rules::MACHINE, table, tasks)
    }

    pub fn started_by(rules: Rules, table: &Table, tasks: usize) -> Result<Configuration, Refusal> {
        let mut configuration = Configuration::of_parts(&vec![0; tasks + 1], &vec![Record::default(); tasks]);
        let (cells, row) = configuration.parts_mut();
        rules.start(table, cells, row)?;
        Ok(configuration)
    }

    pub fn of_parts(cells: &[u64], row: &[Record]) -> Configuration {
        let mut configuration = Configuration {
            tasks: row.len(),
            all_cells: [0; MOST_TASKS + 1],
            all_records: [Record::default(); MOST_TASKS],
        };
        configuration.all_cells[..cells.len()].copy_from_slice(cells);
        configuration.all_records[..row.len()].copy_from_slice(row);
        configuration
    }

    pub fn parts_mut(&mut self) -> (&mut [u64], &mut [Record]) {
        let tasks = self.tasks;
        (&mut self.all_cells[..tasks + 1], &mut self.all_records[..tasks])
    }

    /// Makes a call; a refused one must leave everything as it was.
    pub fn make(&mut self, rules: Rules, table: &Table, call: Call) -> CallAnswer {
        let (cells, row) = self.parts_mut();
        match call {
            Call::Begin { task, operation } => rules.begin(table, row, task, operation).map(|()| None),
            Call::Step { task } => rules.step(table, cells, row, task).map(Some),
        }
    }

    pub fn cells(&self) -> &[u64] {
        &self.all_cells[..self.tasks + 1]
    }

    pub fn row(&self) -> &[Record] {
        &self.all_records[..self.tasks]
    }

    pub fn record(&self, task: usize) -> &Record {
        &self.row()[task]
    }

    pub fn head(&self) -> u64 {
        self.all_cells[HEAD_CELL]
    }

    pub fn state(&self) -> u16 {
        Head::decode(self.head()).state
    }

    pub fn holder(&self) -> Option<Holder> {
        Head::decode(self.head()).holder
    }

    pub fn is_holder(&self, task: usize) -> bool {
        Head::decode(self.head()).is_held_by(task)
    }

    pub fn announcement(&self, task: usize) -> u64 {
        self.cells()[announcement_cell(task)]
    }

    pub fn content(&self, task: usize) -> Announcement {
        Announcement::decode(self.announcement(task))
    }

    /// The kind in the task's announcement is 0.
    pub fn is_empty(&self, task: usize) -> bool {
        kind(self.announcement(task)) == 0
    }

    /// The task's reply stands in its announcement.
    pub fn is_cleared(&self, task: usize) -> bool {
        matches!(self.content(task), Announcement::Response(_))
    }

    pub fn is_linked_to_head(&self, task: usize) -> bool {
        has_mark(self.head(), task)
    }

    pub fn is_linked_to(&self, task: usize, announcement: usize) -> bool {
        has_mark(self.announcement(announcement), task)
    }

    /// A changing operation is pending: the task is neither idle nor reading.
    pub fn has_changing_pending(&self, table: &Table, task: usize) -> bool {
        let record = self.record(task);
        record.is_pending() && table.is_changing(usize::from(record.operation))
    }

    pub fn is_at_rest(&self, table: &Table) -> bool {
        (0..self.tasks).all(|task| !self.has_changing_pending(table, task))
    }

    pub fn shows_image(&self) -> bool {
        self.cells() == image(self.state(), self.tasks)
    }
}
