//! The customer's rules, which docs/FORMATS.md and docs/RUNS.md give, written a second time, apart from the proved
//! library, to compare the two.

mod advance;
pub mod audit;
pub mod audit_bench;
mod audit_cases;
#[cfg(test)]
mod audit_tests;
#[cfg(test)]
mod audited_script;
pub mod bench;
mod book;
pub mod calls;
pub mod canonical;
pub mod canonical_cases;
pub mod ceiling;
pub mod cells;
pub mod compare_bench;
pub mod compare_tables;
mod configuration;
pub mod desk;
pub mod desk_cases;
mod estimate;
pub mod exploration;
mod explore;
pub mod file_calls;
pub mod force;
pub mod force_cases;
mod force_tables;
mod invariant;
pub mod kernel;
mod lines;
pub mod listings;
pub mod long_operations;
mod longest;
mod longest_path;
pub mod machine;
mod mid_work;
mod objects;
mod opening;
mod packed_point;
mod phase;
mod plain_books;
pub mod potential;
pub mod printed;
mod process;
pub mod random;
mod random_runs;
pub mod reach_cases;
pub mod reachable;
mod reading_cases;
pub mod record;
mod redrawn;
mod reduced;
mod reduced_graph;
pub mod refusal;
pub mod renumbering;
mod replay;
pub mod reply;
mod rules;
pub mod script_cases;
mod search;
#[cfg(test)]
mod spare_state_tests;
#[cfg(test)]
mod strategies;
pub mod table;
pub mod table_cases;
pub mod table_file;
pub mod trace;
mod trace_conclusion;
pub mod trace_event;
mod trace_steps;
mod transition;
pub mod window;
pub mod window_cases;
pub mod window_runs;
mod window_stores;
#[cfg(test)]
mod window_tests;
pub mod window_twin;
#[cfg(test)]
mod wrong_builds;
#[cfg(test)]
mod wrong_prints;
#[cfg(test)]
mod wrong_replies;
#[cfg(test)]
mod wrong_rules;
#[cfg(test)]
mod wrong_transitions;
