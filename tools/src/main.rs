//! `drive`: looks at objects, runs, windows and rings through the proved library, for people. What it shows of a call is
//! what the archive answered and left.

mod canonical;
mod ceiling;
mod chart;
mod check;
mod conclusion;
mod consoles;
mod difference;
mod force;
mod legend;
mod lines;
mod names;
mod narrative;
mod number;
mod object;
mod owner;
mod phase;
mod picture;
mod picture_rows;
mod refused;
mod reply;
mod ring_table;
mod rings;
mod room;
mod same;
mod session;
mod show;
mod strategy;
mod svg;
mod table;
mod text;
mod timeline;
mod window;
mod window_lines;
mod word;

use std::ffi::{OsStr, OsString};
use std::io::{ErrorKind, Read, Write};
use std::process::ExitCode;

use drive_object::LONGEST_FILE;

/// The forms of the commands, and what each gives.
const FORMS: [(&str, &str); 14] = [
    (
        "check TABLE",
        "the shape of an object file, and which operations change the state",
    ),
    ("show TABLE", "an object file as text"),
    ("table TEXT > TABLE", "the object file of such a text"),
    (
        "canonical TABLE > TABLE2",
        "the one file of its object: states by first meeting, no text",
    ),
    (
        "same A B",
        "whether two object files are one object, and if not, why",
    ),
    (
        "force TABLE STATE MOVES TARGET..",
        "whether the jack console can force a target state, and how",
    ),
    ("run TABLE LINES", "the bench's lines, each with what happened"),
    (
        "picture TABLE LINES > X.svg",
        "the same as a timeline of tasks and cells",
    ),
    (
        "window TABLE LINES",
        "lines of consoles and tasks, each with what a console reads now",
    ),
    ("ceiling N", "how many own steps an operation of N tasks can take"),
    (
        "ceiling --chart > X.svg",
        "the same for one to eight tasks, as a drawing",
    ),
    ("owner RINGS CHAINAGE", "which ring owns a chainage"),
    (
        "ring-table RINGS > TABLE",
        "the object file of a drive with these rings",
    ),
    ("--help", "this text"),
];

const FIRST: &str =
    "drive looks at objects that tasks share, at their runs and windows, and at rings, through the proved library.\n\n";

const LAST: &str = "
TABLE, A, B, TEXT, LINES and RINGS are files; - is the standard input. docs/FORMATS.md says what a table, the bench's lines and
a window are, tools/README.md what the texts of an object and of rings and the lines about windows are. STATE and each TARGET,
one or more, are states of the table by number or name; MOVES is 1 to 4, of both sides together. CHAINAGE is in whole
millimetres.
Exit status: 0, or 1 if something was refused or could not be read; the reason then stands on the standard error. A line
of a run that is refused is part of its story, and no error. If A and B are not one object, or no target can be forced, the
exit status is 2.
";

/// The exit status of a command that answers no.
const NO: u8 = 2;

/// What a command prints, and its exit status.
struct Answer {
    bytes: Vec<u8>,
    status: u8,
}

impl<B: Into<Vec<u8>>> From<B> for Answer {
    fn from(bytes: B) -> Answer {
        Answer {
            bytes: bytes.into(),
            status: 0,
        }
    }
}

fn help() -> String {
    let forms = FORMS.map(|(form, gives)| format!("  drive {form:<34}{gives}\n"));
    [FIRST, &forms.concat(), LAST].concat()
}

fn main() -> ExitCode {
    let arguments: Vec<OsString> = std::env::args_os().skip(1).collect();
    match answer(&arguments).and_then(|answer| print(&answer.bytes).map(|()| answer.status)) {
        Ok(status) => ExitCode::from(status),
        Err(reason) => {
            eprintln!("drive: {reason}");
            ExitCode::FAILURE
        }
    }
}

/// A reader that has read enough, as `head`, is no error.
fn print(bytes: &[u8]) -> Result<(), String> {
    let mut out = std::io::stdout().lock();
    match out.write_all(bytes).and_then(|()| out.flush()) {
        Err(error) if error.kind() != ErrorKind::BrokenPipe => {
            Err(format!("the output can't be written: {error}"))
        }
        _ => Ok(()),
    }
}

/// What a command answers, or why it can't.
fn answer(arguments: &[OsString]) -> Result<Answer, String> {
    let words: Vec<&OsStr> = arguments.iter().map(OsString::as_os_str).collect();
    match words.as_slice() {
        words if words.iter().any(|word| *word == "--help") => Ok(help().into()),
        [] => Err("no command is given; drive --help lists the commands".into()),
        [command, word] => answer_to_one(command, word),
        [command, one, other] => answer_to_two(command, one, other),
        [command, table, state, moves, targets @ ..] if *command == "force" && !targets.is_empty() => {
            answer_to_force(table, state, moves, targets)
        }
        [command, ..] => Err(other_words(command)),
    }
}

/// The commands that take one word.
fn answer_to_one(command: &OsStr, word: &OsStr) -> Result<Answer, String> {
    match command.to_str() {
        Some("check") => check::report(&read_table(word)?).map(Answer::from),
        Some("show") => show::text_of(&read_table(word)?).map(Answer::from),
        Some("table") => table::file_of(&read(word)?).map(Answer::from),
        Some("canonical") => canonical::file_of(&read_table(word)?, "the table").map(Answer::from),
        Some("ring-table") => ring_table::file_of(&read(word)?).map(Answer::from),
        Some("ceiling") if word == "--chart" => chart::chart().map(Answer::from),
        Some("ceiling") => ceiling::report(&word.to_string_lossy()).map(Answer::from),
        _ => Err(other_words(command)),
    }
}

/// The commands that take two words.
fn answer_to_two(command: &OsStr, one: &OsStr, other: &OsStr) -> Result<Answer, String> {
    match command.to_str() {
        Some("owner") => {
            let chainage = owner::chainage_of(&other.to_string_lossy())?;
            owner::report(&read(one)?, chainage).map(Answer::from)
        }
        Some("same" | "run" | "picture" | "window") if one == "-" && other == "-" => {
            Err("the standard input can be only one of the files".into())
        }
        Some("same") => same::report(&[named_table(one)?, named_table(other)?]).map(yes_or_no),
        Some("run") => narrative::story(&read_table(one)?, &read(other)?).map(Answer::from),
        Some("picture") => picture::timeline(&read_table(one)?, &read(other)?).map(Answer::from),
        Some("window") => consoles::story(&read_table(one)?, &read(other)?).map(Answer::from),
        _ => Err(other_words(command)),
    }
}

/// The answer to `force`, which takes a target or more.
fn answer_to_force(
    table: &OsStr,
    state: &OsStr,
    moves: &OsStr,
    targets: &[&OsStr],
) -> Result<Answer, String> {
    let moves = force::moves_of(&moves.to_string_lossy())?;
    let targets: Vec<_> = targets.iter().map(|target| target.to_string_lossy()).collect();
    force::report(&read_table(table)?, &state.to_string_lossy(), moves, &targets).map(yes_or_no)
}

/// What is printed, with the exit status that says yes or no.
fn yes_or_no((text, yes): (String, bool)) -> Answer {
    let status = if yes { 0 } else { NO };
    Answer {
        status,
        ..Answer::from(text)
    }
}

/// What is said to words that are no command: the forms of the one that was meant, if there is one.
fn other_words(command: &OsStr) -> String {
    let forms = FORMS.iter().map(|(form, _)| *form);
    let meant = forms.filter(|form| form.split(' ').next().map(OsStr::new) == Some(command));
    let meant: Vec<String> = meant.map(|form| format!("drive {form}")).collect();
    match meant.is_empty() {
        true => format!(
            "there is no command {}; drive --help lists the commands",
            command.display()
        ),
        false => format!("{} takes other words: {}", command.display(), meant.join(", or ")),
    }
}

/// A table with the name of its file.
fn named_table(path: &OsStr) -> Result<same::Table, String> {
    let name = match path == "-" {
        true => "the standard input".into(),
        false => path.display().to_string(),
    };
    read_table(path).map(|file| same::Table { name, file })
}

/// A table that is longer than any that is served is read only as far as shows that.
fn read_table(path: &OsStr) -> Result<Vec<u8>, String> {
    read_most(path, LONGEST_FILE as u64 + 1)
}

fn read(path: &OsStr) -> Result<Vec<u8>, String> {
    read_most(path, u64::MAX)
}

/// The first bytes of a file, or of the standard input, as many as there are up to `most`.
fn read_most(path: &OsStr, most: u64) -> Result<Vec<u8>, String> {
    let mut bytes = Vec::new();
    let done = match path == "-" {
        true => std::io::stdin().lock().take(most).read_to_end(&mut bytes),
        false => std::fs::File::open(path).and_then(|file| file.take(most).read_to_end(&mut bytes)),
    };
    done.map_err(|error| format!("{} can't be read: {error}", path.display()))?;
    Ok(bytes)
}
