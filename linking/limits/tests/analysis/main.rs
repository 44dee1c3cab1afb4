//! The analysis on small functions, written as objdump prints them.

mod code;
mod cycles;
mod instructions;
mod page;
mod stack;
