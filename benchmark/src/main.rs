//! Measures the proved library, the second program and a plain mutex in one run: instructions by callgrind, and time.

mod clock;
mod instructions;
mod load;
mod measured;
mod report;
mod subject;
mod tables;

use std::process::ExitCode;

fn main() -> ExitCode {
    let arguments: Vec<String> = std::env::args().skip(1).collect();
    let words: Vec<&str> = arguments.iter().map(String::as_str).collect();
    let result = match words.as_slice() {
        [] => report::print(),
        ["run", load @ ..] => load::Load::parse(load).map(|load| println!("{}", measured::run(&load))),
        _ => Err("usage: benchmark".to_string()),
    };
    match result {
        Ok(()) => ExitCode::SUCCESS,
        Err(message) => {
            eprintln!("{message}");
            ExitCode::FAILURE
        }
    }
}
