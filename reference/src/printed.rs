//! The lines that the bench prints, read back, and parted among the lines of its input.

use std::fmt::Display;
use std::str::FromStr;

use crate::lines::{parse_line, split_lines, Line};
use crate::reply::Reply;

const WORD_DIGITS: usize = 16;

#[derive(Clone, Debug, PartialEq, Eq)]
pub enum Printed {
    /// `n k s m`: k tasks were started.
    Started {
        tasks: usize,
        states: usize,
        operations: usize,
    },
    /// `r t response moved`: the operation of task t has ended.
    Replied { task: usize, reply: Reply },
    /// `x number`: the line was not served.
    Refused { number: u8 },
    /// `m`, the cells and the number of marks.
    Cells { cells: Vec<u64>, marks: u32 },
}

/// What a printed line says, if it has one of the four forms.
pub fn parse_printed(text: &str) -> Option<Printed> {
    let fields: Vec<&str> = text.split(' ').collect();
    match fields.as_slice() {
        ["n", tasks, states, operations] => Some(Printed::Started {
            tasks: number(tasks)?,
            states: number(states)?,
            operations: number(operations)?,
        }),
        ["r", task, response, moved] => Some(Printed::Replied {
            task: number(task)?,
            reply: parse_reply(response, moved)?,
        }),
        ["x", refusal] => Some(Printed::Refused {
            number: number(refusal)?,
        }),
        ["m", words @ .., marks] => Some(Printed::Cells {
            cells: words.iter().map(|word| parse_word(word)).collect::<Option<_>>()?,
            marks: number(marks)?,
        }),
        _ => None,
    }
}

/// A decimal number as it is printed: without a sign, and without zeros before it.
fn number<N: FromStr + Display>(text: &str) -> Option<N> {
    text.parse().ok().filter(|number: &N| number.to_string() == text)
}

fn parse_reply(response: &str, moved: &str) -> Option<Reply> {
    let response = number(response)?;
    match moved {
        "0" => Some(Reply {
            response,
            moved: false,
        }),
        "1" => Some(Reply {
            response,
            moved: true,
        }),
        _ => None,
    }
}

fn parse_word(word: &str) -> Option<u64> {
    let digit = |byte: u8| byte.is_ascii_digit() || (b'a'..=b'f').contains(&byte);
    match word.len() == WORD_DIGITS && word.bytes().all(digit) {
        true => u64::from_str_radix(word, 16).ok(),
        false => None,
    }
}

/// A line of input, and the line that was printed for it, if one was.
#[derive(Clone, Debug, PartialEq, Eq)]
pub struct Served<'a> {
    pub line: &'a [u8],
    pub printed: Option<&'a str>,
}

/// Parts what was printed among the lines of a script: a call may print nothing, and what is printed next is its own unless it
/// is what the `m` prints that must follow every call.
pub fn part<'a>(input: &'a [u8], output: &'a str) -> Result<Vec<Served<'a>>, String> {
    let lines = split_lines(input);
    let mut printed = output.lines().peekable();
    let mut started = false;
    let mut served = Vec::new();
    for (place, &line) in lines.iter().enumerate() {
        let silent = started && is_call(line);
        if silent && lines.get(place + 1) != Some(&b"m".as_slice()) {
            return Err(format!("line {}: no m follows", place + 1));
        }
        let own = printed.next_if(|text| !(silent && text.starts_with("m ")));
        started |= own.is_some_and(|text| text.starts_with("n "));
        served.push(Served { line, printed: own });
    }
    match printed.next() {
        None => Ok(served),
        Some(text) => Err(format!("after the last line is printed: {text}")),
    }
}

/// A begin, a step or a drive.
fn is_call(line: &[u8]) -> bool {
    matches!(
        parse_line(line),
        Some(Line::Begin { .. } | Line::Step { .. } | Line::Drive { .. })
    )
}

#[cfg(test)]
mod tests {
    use super::*;

    #[test]
    fn the_four_forms_are_read() {
        let started = Printed::Started {
            tasks: 2,
            states: 256,
            operations: 32,
        };
        let reply = Reply {
            response: 255,
            moved: true,
        };
        let cells = Printed::Cells {
            cells: vec![0x11fa_1903, 0],
            marks: 2,
        };
        assert_eq!(parse_printed("n 2 256 32"), Some(started));
        assert_eq!(
            parse_printed("r 7 255 1"),
            Some(Printed::Replied { task: 7, reply })
        );
        assert_eq!(parse_printed("x 13"), Some(Printed::Refused { number: 13 }));
        assert_eq!(
            parse_printed("m 0000000011fa1903 0000000000000000 2"),
            Some(cells)
        );
    }

    #[test]
    fn other_lines_are_not_read() {
        for other in [
            "",
            "m",
            "n 2 2",
            "r 0 1",
            "r 0 1 2",
            "r 0 1 0 ",
            "x",
            "x 256",
            "x 07",
            "n +2 2 3",
            "m 000000000000000 0",
            "m 00000000000000A0 0",
            "m +000000000000001 0",
            "m 0000000000000000 0000000000000000",
        ] {
            assert_eq!(parse_printed(other), None, "{other}");
        }
    }

    fn parted<'a>(input: &'a str, output: &'a str) -> Result<Vec<Option<&'a str>>, String> {
        let served = part(input.as_bytes(), output)?;
        Ok(served.into_iter().map(|served| served.printed).collect())
    }

    #[test]
    fn what_is_printed_is_parted_among_the_lines() {
        let input = "s 0\nm\nn 1\nm\nb 0 1\nm\nb 0 1\nm\ns 0\nm\nd 0\nm\n?\nm\n";
        let output = "x 13\nx 13\nn 1 2 3\nm 1\nm 2\nx 9\nm 3\nm 4\nr 0 0 1\nm 5\nx 13\nm 6\n";
        let expected = [
            Some("x 13"),
            Some("x 13"),
            Some("n 1 2 3"),
            Some("m 1"),
            None,
            Some("m 2"),
            Some("x 9"),
            Some("m 3"),
            None,
            Some("m 4"),
            Some("r 0 0 1"),
            Some("m 5"),
            Some("x 13"),
            Some("m 6"),
        ];
        assert_eq!(parted(input, output).unwrap(), expected);
    }

    #[test]
    fn a_call_without_a_print_after_it_and_output_without_a_line_are_refused() {
        assert!(parted("n 1\nb 0 1\ns 0\nm\n", "n 1 2 3\nm 1\n").is_err());
        assert!(parted("n 1\nb 0 1\n", "n 1 2 3\n").is_err());
        assert!(parted("n 1\nm\n", "n 1 2 3\nm 1\nm 2\n").is_err());
        assert_eq!(parted("n 1\nm\n", "n 1 2 3\n").unwrap(), [Some("n 1 2 3"), None]);
    }
}
