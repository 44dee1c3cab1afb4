//! The lines of the bench's input and their forms.

pub const MOST_LINE_BYTES: usize = 64;
const MOST_DIGITS: usize = 3;

#[derive(Clone, Copy, Debug, PartialEq, Eq)]
pub enum Line {
    /// `n k` starts k tasks.
    Start { tasks: usize },
    /// `b t o` begins an operation for a task.
    Begin { task: usize, operation: usize },
    /// `s t` makes one step of a task.
    Step { task: usize },
    /// `d t` steps a task until it ends.
    Drive { task: usize },
    /// `m` prints the cells.
    Print,
}

/// Lines end before byte 10; what is left at the end of the input is a line if it is not empty.
pub fn split_lines(input: &[u8]) -> Vec<&[u8]> {
    let mut lines: Vec<&[u8]> = input.split(|&byte| byte == b'\n').collect();
    if lines.last().is_some_and(|rest| rest.is_empty()) {
        lines.pop();
    }
    lines
}

/// The line, if it has one of the known forms.
pub fn parse_line(line: &[u8]) -> Option<Line> {
    if line.len() > MOST_LINE_BYTES {
        return None;
    }
    let fields: Vec<&[u8]> = line.split(|&byte| byte == b' ').collect();
    match fields.as_slice() {
        [b"n", tasks] => Some(Line::Start {
            tasks: parse_number(tasks)?,
        }),
        [b"b", task, operation] => Some(Line::Begin {
            task: parse_number(task)?,
            operation: parse_number(operation)?,
        }),
        [b"s", task] => Some(Line::Step {
            task: parse_number(task)?,
        }),
        [b"d", task] => Some(Line::Drive {
            task: parse_number(task)?,
        }),
        [b"m"] => Some(Line::Print),
        _ => None,
    }
}

/// A number of one to three digits.
fn parse_number(field: &[u8]) -> Option<usize> {
    let digits = field.iter().all(u8::is_ascii_digit);
    if !digits || field.is_empty() || field.len() > MOST_DIGITS {
        return None;
    }
    let append = |number: usize, digit: &u8| 10 * number + usize::from(digit - b'0');
    Some(field.iter().fold(0, append))
}

#[cfg(test)]
mod tests {
    use super::*;

    #[test]
    fn the_known_forms_are_taken() {
        assert_eq!(parse_line(b"n 8"), Some(Line::Start { tasks: 8 }));
        let begin = Line::Begin {
            task: 0,
            operation: 31,
        };
        assert_eq!(parse_line(b"b 0 31"), Some(begin));
        assert_eq!(parse_line(b"s 999"), Some(Line::Step { task: 999 }));
        assert_eq!(parse_line(b"s 007"), Some(Line::Step { task: 7 }));
        assert_eq!(parse_line(b"d 1"), Some(Line::Drive { task: 1 }));
        assert_eq!(parse_line(b"m"), Some(Line::Print));
    }

    #[test]
    fn other_lines_are_not_taken() {
        let others: [&[u8]; 24] = [
            b"", b" ", b"m ", b" m", b"m 0", b"M", b"n", b"n ", b"n  1", b"n 1 ", b" n 1", b"n\t1", b"n 1\r",
            b"n +1", b"n -1", b"n 1000", b"s 0007", b"s 1 1", b"b 1", b"b 1 2 3", b"b 1  2", b"d", b"x 1",
            b"s 1\0",
        ];
        for other in others {
            assert_eq!(parse_line(other), None, "{:?}", String::from_utf8_lossy(other));
        }
    }

    #[test]
    fn long_lines_are_not_taken() {
        for length in [64, 65, 5_000] {
            assert_eq!(parse_line(&vec![b'm'; length]), None);
        }
    }

    #[test]
    fn the_last_line_may_lack_its_end() {
        assert_eq!(split_lines(b""), Vec::<&[u8]>::new());
        assert_eq!(split_lines(b"\n"), [b""]);
        assert_eq!(split_lines(b"m\nm"), [b"m", b"m"]);
        assert_eq!(split_lines(b"m\nm\n"), [b"m", b"m"]);
        assert_eq!(split_lines(b"m\n\n"), [&b"m"[..], b""]);
    }
}
