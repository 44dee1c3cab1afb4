//! Texts that people write, line by line; and bytes as text and back: a printable character stands for itself, a backslash is
//! doubled, any other byte is `\x` and two hex digits.

use std::fmt::Write;

/// Takes the lines of a text one by one, with their numbers from 1; what is wrong with a line is said with its number.
pub fn each_line<'a>(
    source: &'a [u8],
    mut take: impl FnMut(usize, &'a str) -> Result<(), String>,
) -> Result<(), String> {
    let source = std::str::from_utf8(source).map_err(|_| "the text is not UTF-8")?;
    for (at, line) in (1..).zip(source.lines()) {
        take(at, line).map_err(|reason| format!("line {at}: {reason}"))?;
    }
    Ok(())
}

/// Whether a line of these words is empty or a comment.
pub fn says_nothing(words: &[&str]) -> bool {
    words.first().is_none_or(|first| first.starts_with('#'))
}

/// The bytes as text that `unescape` reads back.
pub fn escape(bytes: &[u8]) -> String {
    let mut text = String::new();
    for chunk in bytes.utf8_chunks() {
        for c in chunk.valid().chars() {
            match c {
                '\\' => text.push_str("\\\\"),
                c if c.is_control() => c.to_string().bytes().for_each(|byte| push_hex(&mut text, byte)),
                c => text.push(c),
            }
        }
        chunk.invalid().iter().for_each(|byte| push_hex(&mut text, *byte));
    }
    text
}

/// The same with characters beyond ASCII as their bytes.
pub fn escape_ascii(bytes: &[u8]) -> String {
    let mut text = String::new();
    for byte in bytes {
        match byte {
            b'\\' => text.push_str("\\\\"),
            b' '..=b'~' => text.push(char::from(*byte)),
            _ => push_hex(&mut text, *byte),
        }
    }
    text
}

fn push_hex(text: &mut String, byte: u8) {
    write!(text, "\\x{byte:02x}").expect("a string takes every text");
}

/// The bytes that a text stands for.
pub fn unescape(text: &str) -> Result<Vec<u8>, String> {
    let mut bytes = Vec::new();
    let mut rest = text;
    while let Some((before, after)) = rest.split_once('\\') {
        bytes.extend(before.bytes());
        rest = match after.strip_prefix('\\') {
            Some(tail) => {
                bytes.push(b'\\');
                tail
            }
            None => {
                bytes.push(
                    hex_byte(after)
                        .ok_or("a backslash stands before \\, before xNN, or at the end of a line")?,
                );
                &after[3..]
            }
        };
    }
    bytes.extend(rest.bytes());
    Ok(bytes)
}

/// The byte that `xNN` at the beginning stands for.
fn hex_byte(text: &str) -> Option<u8> {
    let digits = text.strip_prefix('x')?.get(..2)?;
    let all_hex = digits.bytes().all(|byte| byte.is_ascii_hexdigit());
    all_hex.then(|| u8::from_str_radix(digits, 16).ok()).flatten()
}
