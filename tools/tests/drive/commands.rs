//! Words that the program takes and words that it doesn't.

use crate::program::drive;

const COMMANDS: [&str; 12] = [
    "check",
    "show",
    "table",
    "canonical",
    "same",
    "force",
    "run",
    "picture",
    "window",
    "ceiling",
    "owner",
    "ring-table",
];

#[test]
fn help_names_every_command() {
    let help = drive(&["--help"], b"").text();
    for command in COMMANDS {
        assert!(help.contains(&format!("drive {command} ")));
        assert_eq!(drive(&[command, "--help"], b"").text(), help);
    }
}

#[test]
fn other_words_are_refused_with_the_right_ones() {
    let hint = "; drive --help lists the commands\n";
    assert_eq!(
        drive(&[], b"").failure(),
        format!("drive: no command is given{hint}")
    );
    assert_eq!(
        drive(&["chek"], b"").failure(),
        format!("drive: there is no command chek{hint}")
    );
    for (command, forms) in [
        ("check", "drive check TABLE"),
        ("show", "drive show TABLE"),
        ("table", "drive table TEXT > TABLE"),
        ("canonical", "drive canonical TABLE > TABLE2"),
        ("same", "drive same A B"),
        ("force", "drive force TABLE STATE MOVES TARGET.."),
        ("run", "drive run TABLE LINES"),
        ("picture", "drive picture TABLE LINES > X.svg"),
        ("window", "drive window TABLE LINES"),
        ("ceiling", "drive ceiling N, or drive ceiling --chart > X.svg"),
        ("owner", "drive owner RINGS CHAINAGE"),
        ("ring-table", "drive ring-table RINGS > TABLE"),
    ] {
        for words in [vec![command], vec![command, "a", "b", "c"]] {
            let said = drive(&words, b"").failure();
            assert_eq!(said, format!("drive: {command} takes other words: {forms}\n"));
        }
    }
}

#[test]
fn help_says_what_each_command_gives() {
    let help = drive(&["--help"], b"").text();
    let forms = help.lines().filter_map(|line| line.strip_prefix("  drive "));
    let page = std::fs::read_to_string("README.md").expect("the page");
    for form in forms {
        let (form, gives) = form.split_once("  ").expect("two columns");
        assert!(page.contains(&format!("| `drive {}` |", form.trim())), "{form}");
        assert!(!gives.trim().is_empty());
    }
    assert!(help.contains("\nExit status: 0, or 1 if something was refused or could not be read;"));
    let no = "If A and B are not one object, or no target can be forced, the\nexit status is 2.\n";
    assert!(help.contains(no));
    assert_eq!(drive(&["run", "a", "b", "--help"], b"").text(), help);
}

#[test]
fn what_cant_be_written_is_said() {
    let full = std::fs::OpenOptions::new()
        .write(true)
        .open("/dev/full")
        .expect("a device");
    let mut command = std::process::Command::new(env!("CARGO_BIN_EXE_drive"));
    let ran = command
        .arg("--help")
        .stdout(full)
        .output()
        .expect("the program ends");
    let said = String::from_utf8_lossy(&ran.stderr).to_string();
    assert_eq!(ran.status.code(), Some(1));
    assert!(said.starts_with("drive: the output can't be written: "), "{said}");
}

#[test]
fn the_standard_input_is_one_file() {
    for command in ["run", "picture", "window", "same"] {
        let said = drive(&[command, "-", "-"], b"").failure();
        assert_eq!(said, "drive: the standard input can be only one of the files\n");
    }
}

#[test]
fn a_file_that_cant_be_read_is_named() {
    let said = drive(&["check", "src"], b"").failure();
    assert!(
        said.starts_with("drive: src can't be read: Is a directory"),
        "{said}"
    );
    for words in [
        vec!["check", "no/table"],
        vec!["show", "no/table"],
        vec!["table", "no/table"],
        vec!["canonical", "no/table"],
        vec!["same", "no/table", "-"],
        vec!["same", "../crates/bench/data/table.bin", "no/table"],
        vec!["force", "no/table", "0", "1", "0"],
        vec!["run", "no/table", "-"],
        vec!["picture", "no/table", "-"],
        vec!["window", "no/table", "-"],
        vec!["window", "../crates/bench/data/table.bin", "no/table"],
        vec!["owner", "no/table", "0"],
        vec!["ring-table", "no/table"],
    ] {
        let said = drive(&words, b"").failure();
        assert!(said.starts_with("drive: no/table can't be read: "), "{said}");
    }
}

#[test]
fn a_dash_is_the_standard_input() {
    let (table, text, lines, rings) = (
        "../crates/bench/data/table.bin",
        "examples/flag.txt",
        "../crates/bench/stdin",
        "examples/rings.txt",
    );
    for words in [
        vec!["check", table],
        vec!["show", table],
        vec!["table", text],
        vec!["canonical", table],
        vec!["run", table, lines],
        vec!["picture", table, lines],
        vec!["window", table, "examples/console.lines"],
        vec!["ring-table", rings],
    ] {
        let expected = drive(&words, b"").out;
        for at in 1..words.len() {
            let mut with_dash = words.clone();
            with_dash[at] = "-";
            let input = std::fs::read(words[at]).expect("a file");
            assert_eq!(drive(&with_dash, &input).out, expected, "{words:?}");
        }
    }
}
