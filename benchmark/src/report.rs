//! The tables of the report, as they stand in docs/BENCHMARK.md.

use crate::clock::per_second;
use crate::instructions::of_one;
use crate::load::{Load, What, Who};

/// How many operations the shorter run under callgrind has.
const OPERATIONS: u64 = 500;

/// One task alone, and the most that there may be.
const TASKS: [usize; 2] = [1, 8];

struct Table {
    name: &'static str,
    states: u16,
    operations: u16,
    text: usize,
}

/// The smallest table with a reading and a changing operation, and the largest that there is.
const TABLES: [Table; 2] = [
    Table {
        name: "smallest",
        states: 2,
        operations: 2,
        text: 0,
    },
    Table {
        name: "largest",
        states: 256,
        operations: 32,
        text: 4_096,
    },
];

/// States and operations of the tables on which begins are measured, by the number of their entries.
const BEGUN_TABLES: [(u16, u16); 9] = [
    (1, 2),
    (4, 2),
    (16, 2),
    (4, 32),
    (64, 2),
    (256, 2),
    (64, 8),
    (64, 32),
    (256, 32),
];

pub fn print() -> Result<(), String> {
    print_heads(&[
        "table",
        "operation",
        "n",
        "instructions a step: library",
        "second",
        "ratio",
        "million steps a second: library",
        "second",
        "ratio of times",
    ]);
    for_all_rows(print_steps)?;
    print_heads(&[
        "table",
        "operation",
        "n",
        "instructions an operation: library",
        "second",
        "mutex",
        "million operations a second: library",
        "second",
        "mutex",
    ]);
    for_all_rows(print_operations)?;
    print_heads(&[
        "states",
        "operations",
        "entries",
        "operation",
        "instructions a begin: library",
        "second",
        "ratio",
    ]);
    print_begins()
}

fn print_heads(heads: &[&str]) {
    println!("\n| {} |", heads.join(" | "));
    println!("|{}", "---|".repeat(heads.len()));
}

/// Both tables, both kinds of operations, one task and eight.
fn for_all_rows(print_row: fn(&Table, bool, usize) -> Result<(), String>) -> Result<(), String> {
    for table in &TABLES {
        for changing in [false, true] {
            for tasks in TASKS {
                print_row(table, changing, tasks)?;
            }
        }
    }
    Ok(())
}

fn load(who: Who, what: What, table: &Table, changing: bool, tasks: usize) -> Load {
    Load {
        who,
        what,
        states: table.states,
        operations: table.operations,
        text: table.text,
        changing,
        tasks,
        count: OPERATIONS,
    }
}

fn kind(changing: bool) -> &'static str {
    match changing {
        true => "changing",
        false => "reading",
    }
}

fn print_steps(table: &Table, changing: bool, tasks: usize) -> Result<(), String> {
    let loads = [Who::Library, Who::Second].map(|who| load(who, What::Steps, table, changing, tasks));
    let (library, second) = (of_one(&loads[0])?, of_one(&loads[1])?);
    let rates = per_second(&loads);
    println!(
        "| {} | {} | {tasks} | {library:.1} | {second:.1} | {:.2} | {:.1} | {:.1} | {:.2} |",
        table.name,
        kind(changing),
        library / second,
        rates[0] / 1e6,
        rates[1] / 1e6,
        rates[1] / rates[0]
    );
    Ok(())
}

fn print_operations(table: &Table, changing: bool, tasks: usize) -> Result<(), String> {
    let everyone = [Who::Library, Who::Second, Who::Mutex];
    let loads = everyone.map(|who| load(who, What::Operations, table, changing, tasks));
    let mut line = format!("| {} | {} | {tasks} |", table.name, kind(changing));
    for load in &loads {
        line += &format!(" {:.0} |", of_one(load)?);
    }
    for rate in per_second(&loads) {
        line += &format!(" {:.2} |", rate / 1e6);
    }
    println!("{line}");
    Ok(())
}

fn print_begins() -> Result<(), String> {
    for (states, operations) in BEGUN_TABLES {
        print_begin(states, operations, false)?;
        if states > 1 {
            print_begin(states, operations, true)?;
        }
    }
    Ok(())
}

fn print_begin(states: u16, operations: u16, changing: bool) -> Result<(), String> {
    let table = Table {
        name: "",
        states,
        operations,
        text: 0,
    };
    let library = of_one(&load(Who::Library, What::Begins, &table, changing, 1))?;
    let second = of_one(&load(Who::Second, What::Begins, &table, changing, 1))?;
    println!(
        "| {states} | {operations} | {} | {} | {library:.0} | {second:.0} | {:.2} |",
        states * operations,
        kind(changing),
        library / second
    );
    Ok(())
}
