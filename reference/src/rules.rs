//! The rules that tasks follow: those of the machine, or wrong ones, which the explorer must find.

use crate::calls::{self, step_by};
use crate::machine::{self, Access, Answer, Outcome};
use crate::record::Record;
use crate::refusal::Refusal;
use crate::table::Table;

/// How a start fills cells and row.
pub type Start = fn(&Table, &mut [u64], &mut [Record]) -> Result<(), Refusal>;

/// How a begin changes the row.
pub type Begin = fn(&Table, &mut [Record], usize, usize) -> Result<(), Refusal>;

/// How the access follows from the record.
pub type Plan = fn(&Table, usize, &Record) -> Access;

/// How the next record follows from what the access gave back.
pub type Advance = fn(&Table, usize, usize, &Record, Outcome) -> (Record, Answer);

#[derive(Clone, Copy)]
pub struct Rules {
    pub start: Start,
    pub begin: Begin,
    pub plan: Plan,
    pub advance: Advance,
}

impl Rules {
    pub const MACHINE: Rules = Rules {
        start: calls::start,
        begin: calls::begin,
        plan: machine::plan,
        advance: machine::advance,
    };

    pub fn start(self, table: &Table, cells: &mut [u64], row: &mut [Record]) -> Result<(), Refusal> {
        (self.start)(table, cells, row)
    }

    pub fn begin(
        self,
        table: &Table,
        row: &mut [Record],
        task: usize,
        operation: usize,
    ) -> Result<(), Refusal> {
        (self.begin)(table, row, task, operation)
    }

    pub fn step(
        self,
        table: &Table,
        cells: &mut [u64],
        row: &mut [Record],
        task: usize,
    ) -> Result<Answer, Refusal> {
        step_by(self.plan, self.advance, table, cells, row, task)
    }
}
