//! What `drive window` says of windows, in words that are written here.

use reference::refusal::Refusal;
use reference::trace_event;

/// A refusal's number and sentence; those of windows stand here, the others are the second program's.
pub fn refused(refusal: Refusal) -> String {
    match refusal.number() {
        17 => "refused with 17: the window's command is a begin, and done is not acknowledged".into(),
        18 => "refused with 18: the window's command is not 0 to 3, or the windows are not 8 bytes for each task".into(),
        _ => trace_event::refused(refusal),
    }
}

/// All causes for which calls are refused.
const CAUSES: [Refusal; 18] = [
    Refusal::File,
    Refusal::Dimensions,
    Refusal::Length,
    Refusal::NextState,
    Refusal::Row,
    Refusal::Cells,
    Refusal::Task,
    Refusal::Operation,
    Refusal::Pending,
    Refusal::Idle,
    Refusal::Record,
    Refusal::Cell,
    Refusal::Rings,
    Refusal::Chainage,
    Refusal::Room,
    Refusal::Unacknowledged,
    Refusal::Window,
    Refusal::Question,
];

/// The sentence of a refusal's number.
fn sentence(number: u8) -> String {
    let cause = CAUSES.into_iter().find(|cause| cause.number() == number);
    let start = format!("refused with {number}: ");
    match cause.map(refused) {
        Some(words) => words.strip_prefix(&start).expect("the number first").into(),
        None => "a number that no call answers".into(),
    }
}

/// What stands in a place of 8 letters and one of 23 before words.
fn row(about: String, stands: &str, words: &str) -> String {
    format!("{about:8}  {stands:23}  {words}")
}

/// A name in its place, if the bit is 1.
fn bit_word(status: u8, value: u8, name: &str) -> String {
    match status & value {
        0 => format!("-{}", " ".repeat(name.len() - 1)),
        _ => name.to_string(),
    }
}

/// A window's bytes, what they say, and the refusal that stands there.
pub fn window_rows(window: &[u8], task: usize) -> Vec<String> {
    let hex: Vec<String> = window.iter().map(|byte| format!("{byte:02x}")).collect();
    let (operation, response, status) = (window[0], window[3], window[2]);
    let command = match window[1] {
        0 => "no command ".to_string(),
        1 => "begin      ".to_string(),
        2 => "step       ".to_string(),
        3 => "acknowledge".to_string(),
        other => format!("command {other:<3}"),
    };
    let status = [
        bit_word(status, 1, "busy"),
        bit_word(status, 2, "done"),
        bit_word(status, 4, "refused"),
        bit_word(status, 8, "moved"),
    ];
    let words = format!(
        "operation {operation:<5}  {command}  {}  response {response}",
        status.join(" ")
    );
    let mut rows = vec![row(format!("window {task}"), &hex.join(" "), &words)];
    if window[4] > 0 {
        let refusal = window[4];
        let last = format!("last refused command, when taken: {}", sentence(refusal));
        rows.push(row("refusal".into(), &refusal.to_string(), &last));
    }
    rows
}

/// A task's interrupt line, with the bytes of its window.
pub fn line_row(up: bool, window: &[u8], task: usize) -> String {
    let waits = match window[5] % 2 {
        1 => "interrupt waits",
        _ => "no interrupt   ",
    };
    let masked = match window[6] % 2 {
        1 => "masked",
        _ => "not masked",
    };
    let stands = if up { "up" } else { "down" };
    row(format!("line {task}"), stands, &format!("{waits}  {masked}"))
}

/// A byte that a console writes.
pub fn write_words(task: usize, byte: usize, value: u8) -> String {
    let name = [
        ", operation",
        ", command",
        ", status",
        ", response",
        ", refusal",
        ", interrupt",
        ", mask",
        "",
    ];
    format!("console {task} writes {value} to byte {byte}{}", name[byte])
}

/// A window call that finds a command, and its answer.
pub fn call_words(task: usize, command: u8, answer: Result<(), Refusal>) -> String {
    let asked = match command {
        0 => "command 0, nothing".to_string(),
        1 => "command 1, begin".to_string(),
        2 => "command 2, step".to_string(),
        3 => "command 3, acknowledge".to_string(),
        other => format!("command {other}"),
    };
    let answer = answer.map_or_else(refused, |()| "served".into());
    format!("window call of task {task}, {asked}: {answer}")
}
