//! Prints how much stack each exported call of libdrive_object.a needs at most, and how many instructions it takes at
//! most. Both are read from the archive's machine code; docs/LINKING.md says what is counted.
//!
//! usage: limits [--check PAGE | --met]
//!
//! With --check it prints nothing and fails if the page has other tables; with --met it also runs the calls, and prints
//! the most that was met.

use std::process::ExitCode;

use limits::given::GIVEN;
use limits::survey::survey;
use limits::{archive, met, report};

fn main() -> ExitCode {
    let words: Vec<String> = std::env::args().skip(1).collect();
    let words: Vec<&str> = words.iter().map(String::as_str).collect();
    let done = match words[..] {
        [] => tables().map(|tables| print!("{tables}")),
        ["--check", page] => check(page),
        ["--met"] => met().map(|table| print!("{table}")),
        _ => Err("usage: limits [--check PAGE | --met]".to_string()),
    };
    match done {
        Ok(()) => ExitCode::SUCCESS,
        Err(message) => {
            eprintln!("limits: {message}");
            ExitCode::FAILURE
        }
    }
}

fn tables() -> Result<String, String> {
    report::tables(&survey(&archive::listing()?, &GIVEN)?, &GIVEN)
}

fn check(path: &str) -> Result<(), String> {
    let tables = tables()?;
    let page = std::fs::read_to_string(path).map_err(|error| format!("{path}: {error}"))?;
    match report::marked(&page) {
        Some(held) if held == tables.trim_end() => Ok(()),
        Some(_) => Err(format!("{path} has other tables than these:\n{tables}")),
        None => Err(format!("{path} has no place for the tables")),
    }
}

fn met() -> Result<String, String> {
    met::table(&survey(&archive::listing()?, &GIVEN)?, &archive::measured()?)
}
