//! Numbers as people read and write them.

use std::str::FromStr;

/// A number with a comma before every three digits.
pub fn grouped(number: u64) -> String {
    match number {
        0..=999 => number.to_string(),
        _ => format!("{},{:03}", grouped(number / 1_000), number % 1_000),
    }
}

/// So many of a kind.
pub fn counted(count: usize, kind: &str) -> String {
    let ending = if count == 1 { "" } else { "s" };
    format!("{count} {kind}{ending}")
}

/// The number that a word of digits stands for, if the type has it.
pub fn of_digits<N: FromStr>(word: &str) -> Option<N> {
    match word.bytes().all(|byte| byte.is_ascii_digit()) {
        true => word.parse().ok(),
        false => None,
    }
}
