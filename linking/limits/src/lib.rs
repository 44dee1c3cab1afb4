//! Upper limits of stack and instructions, from the machine code that objdump prints.

pub mod archive;
mod calls;
mod components;
pub mod cycles;
pub mod given;
mod graph;
mod instruction;
mod jump_tables;
pub mod listing;
pub mod met;
mod operand;
mod paths;
pub mod report;
mod stack;
pub mod survey;
pub mod turns;
