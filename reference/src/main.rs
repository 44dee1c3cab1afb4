//! The second program: the commands over the library of the same name.

use std::io::Read;
use std::path::Path;
use std::process::ExitCode;

use reference::audit_bench::{audit_bench, AUDITED_SCRIPTS};
use reference::compare_bench::{compare_bench, RANDOM_SCRIPTS};
use reference::compare_tables::{compare_tables, GENERATED_TABLES};
use reference::listings::{check_listings, write_listings};
use reference::{bench, ceiling, exploration, kernel, long_operations, table, trace, trace_event};

const USAGE: &str = "usage: reference check-table < FILE
       reference compare-tables PATH_TO_check_table [COUNT]
       reference explore
       reference search [TASKS]
       reference longest [TASKS]
       reference bench < LINES
       reference trace TABLE LINES
       reference compare-bench PATH_TO_bench [COUNT]
       reference audit-bench PATH_TO_bench [COUNT]
       reference listings CRATES [--check]
       reference kernel";

fn main() -> ExitCode {
    let arguments: Vec<String> = std::env::args().skip(1).collect();
    let words: Vec<&str> = arguments.iter().map(String::as_str).collect();
    let result = match words.as_slice() {
        ["check-table"] => check_table(),
        ["compare-tables", program] => compare_tables(program, GENERATED_TABLES).map(print_line),
        ["compare-tables", program, count] => {
            number(count).and_then(|count| compare_tables(program, count).map(print_line))
        }
        ["explore"] => exploration::explore_all().map(print_line),
        ["search"] => long_operations::search_for(&[1, 2, 3, 4, 5, 6, 7, 8]),
        ["search", tasks] => task_count(tasks).and_then(|tasks| long_operations::search_for(&[tasks])),
        ["longest"] => long_operations::exact_for(&[1, 2, 3]),
        ["longest", tasks] => task_count(tasks).and_then(|tasks| long_operations::exact_for(&[tasks])),
        ["bench"] => bench_here(),
        ["trace", table, lines] => trace_files(table, lines),
        ["compare-bench", program] => compare_bench(program, RANDOM_SCRIPTS).map(print_line),
        ["compare-bench", program, count] => {
            number(count).and_then(|count| compare_bench(program, count).map(print_line))
        }
        ["audit-bench", program] => audit_bench(program, AUDITED_SCRIPTS).map(print_line),
        ["audit-bench", program, count] => {
            number(count).and_then(|count| audit_bench(program, count).map(print_line))
        }
        ["listings", crates] => write_listings(crates).map(print_line),
        ["listings", crates, "--check"] => check_listings(crates).map(print_line),
        ["kernel"] => kernel::listing().map(|listing| print!("{listing}")),
        _ => Err(USAGE.to_string()),
    };
    match result {
        Ok(()) => ExitCode::SUCCESS,
        Err(message) => {
            eprintln!("{message}");
            ExitCode::FAILURE
        }
    }
}

/// A number of tasks from 1 to 8.
fn task_count(word: &str) -> Result<usize, String> {
    match word.parse() {
        Ok(tasks) if ceiling::ceiling(tasks).is_ok() => Ok(tasks),
        _ => Err(USAGE.to_string()),
    }
}

fn number(word: &str) -> Result<u64, String> {
    word.parse().map_err(|_| USAGE.to_string())
}

fn print_line(line: String) {
    println!("{line}");
}

/// Does what the program `check_table` does.
fn check_table() -> Result<(), String> {
    let mut file = Vec::new();
    let most = table::MOST_FILE_BYTES as u64 + 1;
    std::io::stdin()
        .take(most)
        .read_to_end(&mut file)
        .map_err(|error| error.to_string())?;
    print!("{}", table::check_report(&file));
    Ok(())
}

/// Does what the program `bench` does, in the present folder.
fn bench_here() -> Result<(), String> {
    let mut input = Vec::new();
    std::io::stdin()
        .read_to_end(&mut input)
        .map_err(|error| error.to_string())?;
    print!(
        "{}",
        bench::output(&bench::read_table_file(Path::new(".")), &input)
    );
    Ok(())
}

/// Prints the trace of a table file and a file of lines.
fn trace_files(table: &str, lines: &str) -> Result<(), String> {
    let read = |path: &str| std::fs::read(path).map_err(|error| format!("{path}: {error}"));
    let text = trace::trace(&read(table)?, &read(lines)?).map_err(trace_event::refused)?;
    print!("{text}");
    Ok(())
}
