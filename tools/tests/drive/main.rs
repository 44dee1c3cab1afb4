//! The program `drive`, through the program itself: what it prints is what the second program expects.

mod canonical;
mod ceilings;
mod commands;
mod conclusions;
mod differences;
mod drawing;
mod force;
mod mid_work;
mod page;
mod pictures;
mod prints;
mod program;
mod questions;
mod rings;
mod runs;
mod same;
mod second_consoles;
mod second_run;
mod spare_states;
mod strategies;
mod tables;
mod timeline;
mod window_words;
mod windows;
