//! Runs a program on given input and takes what it prints.

use std::fs::File;
use std::io::{Read, Write};
use std::path::{Path, PathBuf};
use std::process::{ChildStdin, Command, ExitStatus, Stdio};
use std::thread::sleep;
use std::time::Duration;

/// The program's path made absolute, so that it can be run in any folder.
pub fn find_program(path: &str) -> Result<PathBuf, String> {
    std::fs::canonicalize(path).map_err(|error| format!("{path}: {error}"))
}

/// Input through a pipe, at once. The program may leave the rest of it unread; its output is at most a few lines.
pub fn run_with_bytes(program: &Path, input: &[u8]) -> Result<Vec<u8>, String> {
    run_by_pipe(program, &mut Command::new(program), |mut pipe| {
        let _unread_rest = pipe.write_all(input);
    })
}

/// Between two pieces of the input, so that the program reads them one by one.
const PAUSE: Duration = Duration::from_millis(3);

/// Input from the file `stdin` of a folder, written to a pipe in pieces of the given length. The program runs in that
/// folder; it may leave the rest unread, and its output is at most a few lines.
pub fn run_in_pieces(program: &Path, folder: &Path, length: usize) -> Result<Vec<u8>, String> {
    let input = std::fs::read(folder.join("stdin")).map_err(|error| error.to_string())?;
    run_by_pipe(program, Command::new(program).current_dir(folder), |mut pipe| {
        for piece in input.chunks(length) {
            let _unread_rest = pipe.write_all(piece);
            sleep(PAUSE);
        }
    })
}

/// The pipe is closed when it has been fed, and then the output is read.
fn run_by_pipe(
    program: &Path,
    command: &mut Command,
    feed: impl FnOnce(ChildStdin),
) -> Result<Vec<u8>, String> {
    let failed = |error: std::io::Error| format!("{}: {error}", program.display());
    let mut child = command
        .stdin(Stdio::piped())
        .stdout(Stdio::piped())
        .spawn()
        .map_err(failed)?;
    feed(child.stdin.take().expect("input is a pipe"));
    let mut output = Vec::new();
    let mut printed = child.stdout.take().expect("output is a pipe");
    printed.read_to_end(&mut output).map_err(failed)?;
    let status = child.wait().map_err(failed)?;
    expect_own_end(program, status, output)
}

/// Input from the file `stdin` of a folder; the program runs in that folder.
pub fn run_in_folder(program: &Path, folder: &Path) -> Result<Vec<u8>, String> {
    let failed = |error: std::io::Error| format!("{}: {error}", program.display());
    let input = File::open(folder.join("stdin")).map_err(failed)?;
    let output = Command::new(program)
        .current_dir(folder)
        .stdin(input)
        .stderr(Stdio::inherit())
        .output()
        .map_err(failed)?;
    expect_own_end(program, output.status, output.stdout)
}

/// No rule gives an exit status, so any will do; a program that a signal ended has failed.
fn expect_own_end(program: &Path, status: ExitStatus, output: Vec<u8>) -> Result<Vec<u8>, String> {
    match status.code() {
        Some(_) => Ok(output),
        None => Err(format!("{}: {status}", program.display())),
    }
}
