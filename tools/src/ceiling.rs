//! `drive ceiling`: how many own steps an operation can take.

use drive_object::ceiling;

use crate::number::grouped;
use crate::refused;

/// The longest operations known, for one to eight tasks; docs/CEILINGS.md says how each is known.
const LONGEST_KNOWN: [u64; 8] = [17, 124, 384, 892, 1_748, 3_046, 4_893, 7_375];

/// Up to how many tasks every schedule has been explored on some tables, and up to how many with some left out by an argument.
const EXPLORED: usize = 2;
const ARGUED: usize = 3;

/// What is known of the own steps of an operation of `tasks` tasks.
pub struct Limits {
    pub tasks: usize,
    /// The contract's, from the library.
    pub ceiling: u64,
    pub proved: u64,
    pub longest: u64,
}

/// The limits for a number of tasks, or the library's refusal in words.
pub fn limits(tasks: usize) -> Result<Limits, String> {
    let ceiling = ceiling(tasks).map_err(refused::in_words)?;
    let n = tasks as u64;
    Ok(Limits {
        tasks,
        ceiling: u64::from(ceiling),
        proved: n * n * (16 * n + 47) + 98 * n + 32,
        longest: LONGEST_KNOWN[tasks - 1],
    })
}

/// The limits in words.
pub fn report(word: &str) -> Result<String, String> {
    let tasks = word
        .parse()
        .map_err(|_| format!("'{word}' is no number of tasks"))?;
    let limits = limits(tasks)?;
    let (ceiling, proved) = (grouped(limits.ceiling), grouped(limits.proved));
    let (longest, how) = (grouped(limits.longest), how_known(tasks));
    let subject = match tasks {
        1 => "of one task that runs alone".to_string(),
        _ => format!("of one of {tasks} tasks, whatever the others do"),
    };
    Ok(format!(
        "The own steps of an operation {subject}:\n\
         {ceiling:>9}  the ceiling of the contract; a count never passes it\n\
         {proved:>9}  proved for every table and every list of calls: no operation takes more\n\
         {longest:>9}  {how}\n"
    ))
}

fn how_known(tasks: usize) -> &'static str {
    match tasks {
        0..=EXPLORED => {
            "the longest there is: all schedules on three tables; for other tables argued, not proved"
        }
        ARGUED => "the longest there is: explored, and for schedules and tables left out argued, not proved",
        _ => "the longest known: a search found it, and a longer one may exist",
    }
}
