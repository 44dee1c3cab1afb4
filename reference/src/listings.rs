//! The stored files of the programs under `crates/`: the tables that they are run on and what they must print, as this
//! program writes them. The lines of input are written by hand.

use std::fs;
use std::path::{Path, PathBuf};

use crate::bench::output;
use crate::table::{check_report, MOST_STATES, MOST_TEXT_BYTES};
use crate::table_file::TableFile;

const TABLE: &str = "data/table.bin";
const INPUT: &str = "stdin";
const PRINTED: &str = "stdout";

/// A stored file: its path and its bytes.
type Stored = (PathBuf, Vec<u8>);

/// Writes all tables and listings.
pub fn write_listings(crates: &str) -> Result<String, String> {
    let files = stored_files(Path::new(crates))?;
    for (path, bytes) in &files {
        path.parent()
            .map_or(Ok(()), fs::create_dir_all)
            .and_then(|()| fs::write(path, bytes))
            .map_err(|error| at(path, error))?;
    }
    Ok(format!("listings: {} files written", files.len()))
}

/// Fails if a stored table or listing is not what would be written, and names it.
pub fn check_listings(crates: &str) -> Result<String, String> {
    let crates = Path::new(crates);
    let files = stored_files(crates)?;
    let mut faults = without_rule(crates, &files)?;
    for (path, bytes) in &files {
        if fs::read(path).ok().as_ref() != Some(bytes) {
            faults.push(at(path, "is not what `reference listings` writes"));
        }
    }
    match faults.is_empty() {
        true => Ok(format!("listings: {} files, 0 differences", files.len())),
        false => Err(faults.join("\n")),
    }
}

fn at(path: &Path, message: impl std::fmt::Display) -> String {
    format!("{}: {message}", path.display())
}

/// Every table and every listing, made from the tables below and the stored lines of input.
fn stored_files(crates: &Path) -> Result<Vec<Stored>, String> {
    let checked = TableFile::flag().to_bytes();
    let folder = crates.join("check_table");
    let report = check_report(&checked).into_bytes();
    let mut files = vec![(folder.join(INPUT), checked), (folder.join(PRINTED), report)];
    for (name, table) in bench_tables() {
        let folder = crates.join(name);
        let input = folder.join(INPUT);
        let lines = fs::read(&input).map_err(|error| at(&input, error))?;
        let table = table.map(|file| file.to_bytes());
        let printed = output(table.as_deref().unwrap_or(&[]), &lines);
        files.extend(table.map(|bytes| (folder.join(TABLE), bytes)));
        files.push((folder.join(PRINTED), printed.into_bytes()));
    }
    Ok(files)
}

/// The crates that run the bench, each with its table, if it has one.
fn bench_tables() -> Vec<(&'static str, Option<TableFile>)> {
    let flag = TableFile::flag;
    let mut start_too_high = flag();
    start_too_high.start = start_too_high.states;
    let mut last_leads_out = flag();
    let last_entry = last_leads_out.entries.len() - 2;
    last_leads_out.entries[last_entry] = 2;
    vec![
        ("bench", Some(flag())),
        ("listing_alone", Some(flag())),
        ("listing_dimensions", Some(start_too_high)),
        ("listing_forms", Some(flag())),
        ("listing_marks", Some(flag())),
        ("listing_mid_work", Some(flag())),
        ("listing_next_state", Some(last_leads_out)),
        ("listing_no_table", None),
        ("listing_spare_state", Some(TableFile::spare_state())),
        ("listing_text_4096", Some(longest_file())),
        (
            "listing_text_4097",
            Some(flag().with_text(vec![b't'; MOST_TEXT_BYTES + 1])),
        ),
    ]
}

/// A table of the greatest dimensions after the longest text, in which the mark stands too.
fn longest_file() -> TableFile {
    let about = b"DRIVE1 counter: operation o adds o modulo 256; the response is the old state. ";
    let text = about.iter().copied().cycle().take(MOST_TEXT_BYTES).collect();
    let entries: Vec<(u8, u8)> = (0..=255u8)
        .flat_map(|state| (0..32).map(move |operation| (state.wrapping_add(operation), state)))
        .collect();
    TableFile::plain(MOST_STATES as u16, 32, 250, &entries).with_text(text)
}

/// What is stored as a table or a listing and is none of the files above.
fn without_rule(crates: &Path, files: &[Stored]) -> Result<Vec<String>, String> {
    let mut faults = Vec::new();
    for entry in fs::read_dir(crates).map_err(|error| at(crates, error))? {
        let folder = entry.map_err(|error| at(crates, error))?.path();
        for path in [folder.join(TABLE), folder.join(PRINTED)] {
            if path.exists() && !files.iter().any(|(known, _)| *known == path) {
                faults.push(at(
                    &path,
                    "is stored, but `reference listings` has no rule for it",
                ));
            }
        }
    }
    faults.sort();
    Ok(faults)
}

#[cfg(test)]
mod tests {
    use super::*;

    #[test]
    fn the_tables_are_served_or_refused_as_their_names_say() {
        let tables = bench_tables().into_iter().map(|(name, table)| {
            let bytes = table.map_or(Vec::new(), |file| file.to_bytes());
            (name, check_report(&bytes))
        });
        for (name, report) in tables {
            let expected = match name {
                "listing_no_table" => "x 1\n",
                "listing_dimensions" => "x 2\n",
                "listing_text_4097" => "x 3\n",
                "listing_next_state" => "x 4\n",
                "listing_spare_state" => "ok 3 2 0 01\n",
                "listing_text_4096" => "ok 256 32 250 01111111111111111111111111111111\n",
                _ => "ok 2 3 0 011\n",
            };
            assert_eq!(report, expected, "{name}");
        }
    }

    /// Operation 0 reads, though it would move the spare state: while it is pending the cells are the image of state 1.
    #[test]
    fn the_listing_with_a_spare_state_rests_while_operation_0_is_pending() {
        let lines = b"n 1\nb 0 1\nd 0\nb 0 0\nm\ns 0\nm\n";
        let image = "m 0000000000000100 0000000000000000 0\n";
        assert_eq!(
            output(&TableFile::spare_state().to_bytes(), lines),
            format!("n 1 3 2\nr 0 11 1\n{image}r 0 20 0\n{image}")
        );
    }

    #[test]
    fn a_changed_a_missing_and_an_unknown_file_are_seen() {
        let root = std::env::temp_dir().join(format!("reference-listings-{}", std::process::id()));
        let crates = root.to_str().unwrap();
        for (name, _) in bench_tables() {
            fs::create_dir_all(root.join(name)).unwrap();
            fs::write(root.join(name).join(INPUT), "n 1\nm\n").unwrap();
        }
        assert!(check_listings(crates).is_err());
        write_listings(crates).unwrap();
        let files = stored_files(&root).unwrap().len();
        assert_eq!(
            check_listings(crates).unwrap(),
            format!("listings: {files} files, 0 differences")
        );
        let unknown = root.join("listing_no_table").join(TABLE);
        fs::create_dir_all(unknown.parent().unwrap()).unwrap();
        fs::write(&unknown, "").unwrap();
        assert!(check_listings(crates).unwrap_err().contains("has no rule"));
        fs::remove_file(&unknown).unwrap();
        fs::write(root.join("bench").join(PRINTED), "n 1 2 4\n").unwrap();
        assert!(check_listings(crates).unwrap_err().contains("is not what"));
        fs::remove_dir_all(&root).unwrap();
    }
}
