//! A script with what was printed for it, in tests alone: it is audited as it is, and with a print altered by hand.

use crate::audit::{audit, Seen};
use crate::bench::Bench;
use crate::cells::count_marks;
use crate::lines::split_lines;
use crate::printed::{parse_printed, Printed, Served};
use crate::rules::Rules;
use crate::table_file::TableFile;

/// A table file, and each line with what was printed for it.
#[derive(Clone)]
pub struct Script {
    file: Vec<u8>,
    pub lines: Vec<(Vec<u8>, Option<String>)>,
}

impl Script {
    /// On the flag.
    pub fn served_by(rules: Rules, input: &[u8]) -> Script {
        Script::served_on(TableFile::flag().to_bytes(), rules, input)
    }

    pub fn served_on(file: Vec<u8>, rules: Rules, input: &[u8]) -> Script {
        let mut bench = Bench::new(&file).unwrap().with_rules(rules);
        let serve = |line: &[u8]| {
            let printed = bench.serve(line);
            (line.to_vec(), printed.strip_suffix('\n').map(str::to_string))
        };
        let lines = split_lines(input).into_iter().map(serve).collect();
        Script { file, lines }
    }

    pub fn audit(&self) -> Result<Seen, String> {
        let mut script = Vec::new();
        for (line, printed) in &self.lines {
            let printed = printed.as_deref();
            script.push(Served { line, printed });
        }
        audit(&self.file, &script)
    }

    /// The numbers of the lines that print cells.
    pub fn prints(&self) -> Vec<usize> {
        (1..)
            .zip(&self.lines)
            .filter(|(_, served)| served.0 == b"m")
            .map(|(line, _)| line)
            .collect()
    }

    /// What is printed for a line, which is numbered from 1, is another text.
    pub fn printing(&self, line: usize, text: &str) -> Script {
        let mut altered = self.clone();
        altered.lines[line - 1].1 = Some(text.to_string()).filter(|text| !text.is_empty());
        altered
    }

    pub fn cells(&self, line: usize) -> Vec<u64> {
        match self.lines[line - 1].1.as_deref().and_then(parse_printed) {
            Some(Printed::Cells { cells, .. }) => cells,
            other => panic!("{other:?} has no cells"),
        }
    }

    /// The cells that a line prints are altered, and their marks counted again.
    pub fn altered(&self, line: usize, alter: impl Fn(&mut Vec<u64>)) -> Script {
        let mut cells = self.cells(line);
        alter(&mut cells);
        let words: String = cells.iter().map(|word| format!(" {word:016x}")).collect();
        self.printing(line, &format!("m{words} {}", count_marks(&cells)))
    }

    /// The fact that the auditor finds broken in that line, or what else it says.
    pub fn found(&self, line: usize) -> String {
        let said = self.audit().map_or_else(|said| said, |_| "nothing".to_string());
        let in_line = said.strip_prefix(&format!("line {line}: ")).unwrap_or(&said);
        in_line.split(':').next().unwrap_or_default().to_string()
    }
}
