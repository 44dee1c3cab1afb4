//! The archive, and the programs that are run on it.

use std::ffi::OsStr;
use std::path::{Path, PathBuf};
use std::process::Command;

use crate::listing::Listing;

const WRITTEN_BY_RT: &str = "../../crates/drive_object/out";
const MEASURING: &str = "met.c";

/// The folder of this package.
fn here() -> &'static Path {
    Path::new(env!("CARGO_MANIFEST_DIR"))
}

/// The folder of libdrive_object.a: the one in DRIVE_OBJECT_FOLDER, else the one that `rt lib` writes to.
fn folder() -> PathBuf {
    match std::env::var_os("DRIVE_OBJECT_FOLDER") {
        Some(folder) => PathBuf::from(folder),
        None => here().join(WRITTEN_BY_RT),
    }
}

/// What a program prints.
fn printed_by(program: impl AsRef<OsStr>, words: &[&OsStr]) -> Result<String, String> {
    let name = program.as_ref().to_string_lossy().into_owned();
    let output = Command::new(program)
        .args(words)
        .output()
        .map_err(|error| format!("{name}: {error}"))?;
    match output.status.success() {
        true => Ok(String::from_utf8_lossy(&output.stdout).into_owned()),
        false => Err(format!("{name}: {}", String::from_utf8_lossy(&output.stderr))),
    }
}

/// The archive's code, by objdump.
pub fn listing() -> Result<Listing, String> {
    let archive = folder().join("libdrive_object.a");
    let objdump = |options: &[&str]| {
        let options = options.iter().map(OsStr::new);
        printed_by(
            "objdump",
            &options.chain([archive.as_os_str()]).collect::<Vec<_>>(),
        )
    };
    Listing::parse(&objdump(&["-d", "-r", "--no-show-raw-insn"])?, &objdump(&["-r"])?)
}

/// What the measuring program prints, linked with the archive.
pub fn measured() -> Result<String, String> {
    let built = std::env::temp_dir().join(format!("drive-object-met-{}", std::process::id()));
    let (source, folder) = (here().join(MEASURING), folder());
    let mut words = ["-std=c11", "-O1", "-Wall", "-Wextra", "-Werror", "-o"]
        .map(OsStr::new)
        .to_vec();
    words.extend([
        built.as_os_str(),
        source.as_os_str(),
        OsStr::new("-L"),
        folder.as_os_str(),
    ]);
    words.extend(["-ldrive_object", "-Wl,--wrap=memset"].map(OsStr::new));
    let printed = printed_by("gcc", &words).and_then(|_| printed_by(&built, &[]));
    // If gcc failed there is no file to remove.
    let _ = std::fs::remove_file(&built);
    printed
}
