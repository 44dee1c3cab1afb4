//! Runs the program `drive`, as its user does.

use std::io::Write;
use std::process::{Command, Stdio};
use std::sync::atomic::{AtomicUsize, Ordering};

/// Exit status and output of a run.
pub struct Ran {
    pub status: i32,
    pub out: Vec<u8>,
    pub err: String,
}

impl Ran {
    /// What a command that succeeds prints.
    pub fn text(self) -> String {
        assert_eq!((self.status, self.err.as_str()), (0, ""));
        String::from_utf8(self.out).expect("text")
    }

    /// What a command that answers no prints.
    pub fn no(self) -> String {
        assert_eq!((self.status, self.err.as_str()), (2, ""));
        String::from_utf8(self.out).expect("text")
    }

    /// What a command that fails says; it prints nothing else.
    pub fn failure(self) -> String {
        assert_eq!((self.status, self.out.as_slice()), (1, [].as_slice()));
        self.err
    }
}

/// Runs `drive` with these words and this standard input.
pub fn drive(words: &[&str], input: &[u8]) -> Ran {
    drive_in(".", words, input)
}

fn drive_in(folder: &str, words: &[&str], input: &[u8]) -> Ran {
    let mut child = Command::new(env!("CARGO_BIN_EXE_drive"))
        .args(words)
        .current_dir(folder)
        .stdin(Stdio::piped())
        .stdout(Stdio::piped())
        .stderr(Stdio::piped())
        .spawn()
        .expect("the program starts");
    let mut stdin = child.stdin.take().expect("a pipe");
    let input = input.to_vec();
    // A program that fails early doesn't read its input: the pipe is closed then.
    let writer = std::thread::spawn(move || stdin.write_all(&input).ok());
    let output = child.wait_with_output().expect("the program ends");
    writer.join().expect("the writer ends");
    Ran {
        status: output.status.code().expect("an exit status"),
        out: output.stdout,
        err: String::from_utf8(output.stderr).expect("text"),
    }
}

/// A path that no other call gives.
fn own_path() -> String {
    static PATHS: AtomicUsize = AtomicUsize::new(0);
    let number = PATHS.fetch_add(1, Ordering::Relaxed);
    format!("{}/{number}", env!("CARGO_TARGET_TMPDIR"))
}

/// Runs a command on a table, which is kept in a file meanwhile, and on lines from the standard input.
pub fn drive_on(command: &str, table: &[u8], lines: &[u8]) -> Ran {
    let path = format!("{}.bin", own_path());
    std::fs::write(&path, table).expect("a file");
    let ran = drive(&[command, &path, "-"], lines);
    std::fs::remove_file(path).expect("the file was there");
    ran
}

/// Runs `drive` in a folder that has these files and no others.
pub fn drive_among(files: &[(&str, &[u8])], words: &[&str], input: &[u8]) -> Ran {
    let folder = own_path();
    std::fs::create_dir_all(&folder).expect("a folder");
    for (name, bytes) in files {
        std::fs::write(format!("{folder}/{name}"), bytes).expect("a file");
    }
    let ran = drive_in(&folder, words, input);
    std::fs::remove_dir_all(folder).expect("the folder was there");
    ran
}
