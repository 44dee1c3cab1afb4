//! The calls as a caller outside makes them: on the bytes of a file, with tests 1 to 3 at every call.

use crate::calls;
use crate::machine::Answer;
use crate::record::Record;
use crate::refusal::Refusal;
use crate::table::Table;

#[inline]
pub fn start(file: &[u8], cells: &mut [u64], row: &mut [Record]) -> Result<(), Refusal> {
    calls::start(&Table::read(file)?, cells, row)
}

#[inline]
pub fn begin(file: &[u8], row: &mut [Record], task: usize, operation: usize) -> Result<(), Refusal> {
    calls::begin(&Table::read(file)?, row, task, operation)
}

#[inline]
pub fn step(file: &[u8], cells: &mut [u64], row: &mut [Record], task: usize) -> Result<Answer, Refusal> {
    calls::step(&Table::read(file)?, cells, row, task)
}
