//! `drive table`: the object file of a text.

use drive_object::{check, Refusal, Shape};

use crate::names::Names;
use crate::object::{self, Entry, Object};
use crate::refused;
use crate::text::{each_line, says_nothing, unescape};

/// What the lines of a text say, each with its number.
#[derive(Default)]
struct Said<'a> {
    text: Vec<u8>,
    states: Option<(usize, &'a str)>,
    operations: Option<(usize, &'a str)>,
    start: Option<(usize, &'a str)>,
    entries: Vec<(usize, [&'a str; 4])>,
}

/// The file, or what is wrong with the text.
pub fn file_of(source: &[u8]) -> Result<Vec<u8>, String> {
    let mut said = Said::default();
    each_line(source, |at, line| said.take(at, line))?;
    said.file()
}

impl<'a> Said<'a> {
    fn take(&mut self, at: usize, line: &'a str) -> Result<(), String> {
        if let Some(content) = line.strip_prefix('|') {
            return self.take_text(content.strip_prefix(' ').unwrap_or(content));
        }
        let words: Vec<&str> = line.split_whitespace().collect();
        match words.as_slice() {
            words if says_nothing(words) => Ok(()),
            [from, by, "->", to, response] => {
                self.entries.push((at, [from, by, to, response]));
                Ok(())
            }
            ["states", count] => once(&mut self.states, at, count),
            ["operations", count] => once(&mut self.operations, at, count),
            ["start", state] => once(&mut self.start, at, state),
            _ => Err("a line is '| text', 'states N', 'operations N', 'start STATE', 'STATE OPERATION -> STATE RESPONSE', or '# comment'".into()),
        }
    }

    /// A line of free text ends in byte 10, but for one that ends in a backslash.
    fn take_text(&mut self, content: &str) -> Result<(), String> {
        let backslashes = content.len() - content.trim_end_matches('\\').len();
        let open = backslashes % 2 == 1;
        let content = if open {
            &content[..content.len() - 1]
        } else {
            content
        };
        self.text.extend(unescape(content)?);
        if !open {
            self.text.push(b'\n');
        }
        Ok(())
    }

    fn file(&self) -> Result<Vec<u8>, String> {
        let states = number(self.states, "states")?;
        let operations = number(self.operations, "operations")?;
        let (at, start) = self.start.ok_or("there is no line 'start STATE'")?;
        let shape = |start| Shape {
            states,
            operations,
            start,
        };
        if check(&object::file(&[], shape(0), &[])) == Err(Refusal::Dimensions) {
            return Err(refused::in_words(Refusal::Dimensions));
        }
        let known = Known {
            states: Members::new(&self.text, "state", states),
            operations: Members::new(&self.text, "operation", operations),
        };
        let start = known
            .states
            .number(start)
            .map_err(|reason| format!("line {at}: {reason}"))?;
        let entries = self.entries(&known)?;
        let file = object::file(&self.text, shape(start as u16), &entries);
        Object::of(&file)?;
        Ok(file)
    }

    /// Every entry once, by state and then by operation.
    fn entries(&self, known: &Known) -> Result<Vec<Entry>, String> {
        let kinds = known.operations.count;
        let mut entries = vec![None; known.states.count * kinds];
        for (at, words) in &self.entries {
            let (place, entry) = known
                .entry(words)
                .map_err(|reason| format!("line {at}: {reason}"))?;
            if entries[place].replace(entry).is_some() {
                return Err(format!(
                    "line {at}: state {} has operation {} twice",
                    words[0], words[1]
                ));
            }
        }
        let missing = |place: usize| {
            let (state, operation) = (
                known.states.name(place / kinds),
                known.operations.name(place % kinds),
            );
            format!("there is no entry for operation {operation} in state {state}")
        };
        let given = |(place, entry): (usize, Option<Entry>)| entry.ok_or_else(|| missing(place));
        entries.into_iter().enumerate().map(given).collect()
    }
}

fn once<'a>(place: &mut Option<(usize, &'a str)>, at: usize, word: &'a str) -> Result<(), String> {
    match place.replace((at, word)) {
        None => Ok(()),
        Some((before, _)) => Err(format!("line {before} has said this")),
    }
}

/// The number in a line `KIND N`.
fn number(said: Option<(usize, &str)>, kind: &str) -> Result<u16, String> {
    let (at, word) = said.ok_or_else(|| format!("there is no line '{kind} N'"))?;
    match word.bytes().all(|byte| byte.is_ascii_digit()) {
        true => word.parse().map_err(|_| refused::in_words(Refusal::Dimensions)),
        false => Err(format!("line {at}: {word} is no number")),
    }
}

/// The states or the operations of an object.
struct Members {
    kind: &'static str,
    count: usize,
    names: Names,
}

struct Known {
    states: Members,
    operations: Members,
}

impl Members {
    fn new(text: &[u8], kind: &'static str, count: u16) -> Members {
        let count = usize::from(count);
        let names = Names::in_text(text, kind, count);
        Members { kind, count, names }
    }

    fn name(&self, number: usize) -> String {
        self.names.of(number)
    }

    fn number(&self, word: &str) -> Result<usize, String> {
        let (kind, last) = (self.kind, self.count - 1);
        let hint = match (&self.names.misfit, self.names.any()) {
            (Some(misfit), false) => format!("; {misfit}"),
            (None, false) => {
                format!("; names are listed in the text, as '| {kind}s: NAME NAME', one for each")
            }
            (_, true) => ", or go by their names".into(),
        };
        match self.names.number(word) {
            Some(number) if number < self.count => Ok(number),
            _ => Err(format!("{word} is no {kind}: they are 0 to {last}{hint}")),
        }
    }
}

impl Known {
    /// An entry and its place.
    fn entry(&self, [from, by, to, response]: &[&str; 4]) -> Result<(usize, Entry), String> {
        let place = self.states.number(from)? * self.operations.count + self.operations.number(by)?;
        let next = self.states.number(to)? as u8;
        let response = response.parse().map_err(|_| {
            format!(
                "{response} is no response: responses are numbers from 0 to {}",
                u8::MAX
            )
        })?;
        Ok((place, Entry { next, response }))
    }
}
