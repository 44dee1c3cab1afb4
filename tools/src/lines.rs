//! The bench's lines: how an input is cut, and what a line asks for.

/// The longest line in bytes.
pub const LONGEST: usize = 64;

/// What a line asks for.
#[derive(Clone, Copy, PartialEq, Eq, Debug)]
pub enum Command {
    Start(usize),
    Begin(usize, usize),
    Step(usize),
    Finish(usize),
    Print,
}

/// A line ends before byte 10 or, if not empty, at the end of the input.
pub fn cut(input: &[u8]) -> impl Iterator<Item = &[u8]> {
    let lines = input.split_inclusive(|byte| *byte == b'\n');
    lines.map(|line| line.strip_suffix(b"\n").unwrap_or(line))
}

/// The fields of a line, parted by single spaces; none if it is too long.
pub fn fields(line: &[u8]) -> Option<Vec<&[u8]>> {
    let fits = line.len() <= LONGEST;
    fits.then(|| line.split(|byte| *byte == b' ').collect())
}

/// The command of a line; none if its form isn't known.
pub fn command(line: &[u8]) -> Option<Command> {
    match fields(line)?.as_slice() {
        [b"n", tasks] => Some(Command::Start(number(tasks)?)),
        [b"b", task, operation] => Some(Command::Begin(number(task)?, number(operation)?)),
        [b"s", task] => Some(Command::Step(number(task)?)),
        [b"d", task] => Some(Command::Finish(number(task)?)),
        [b"m"] => Some(Command::Print),
        _ => None,
    }
}

/// One to three digits.
pub fn number(field: &[u8]) -> Option<usize> {
    let digits = (1..=3).contains(&field.len()) && field.iter().all(u8::is_ascii_digit);
    digits.then(|| {
        field
            .iter()
            .fold(0, |value, digit| 10 * value + usize::from(digit - b'0'))
    })
}
