//! What was met in measured calls, beside the limits.

use crate::report::grouped;
use crate::survey::Known;

/// A table with a row for each line of the measuring program: a call, its instructions, its bytes of stack, and where the
/// instructions were met. Fails if a limit is passed.
pub fn table(known: &Known, measured: &str) -> Result<String, String> {
    let mut text = String::from(
        "| call | instructions, at most | met | bytes of stack, at most | met | the most instructions were met in |\n\
         |---|---|---|---|---|---|\n",
    );
    for line in measured.lines() {
        text.push_str(&row(known, line)?);
    }
    Ok(text)
}

fn row(known: &Known, line: &str) -> Result<String, String> {
    let unknown = || format!("the measuring program printed: {line}");
    let mut words = line.splitn(4, ' ');
    let call = words.next().ok_or_else(unknown)?;
    let limits = known.get(call).ok_or_else(unknown)?;
    let mut number = || words.next()?.parse::<u64>().ok();
    let (instructions, stack) = (number().ok_or_else(unknown)?, number().ok_or_else(unknown)?);
    let place = words.next().ok_or_else(unknown)?;
    if instructions > limits.instructions || stack > limits.stack {
        return Err(format!("a limit is passed: {line}"));
    }
    let [most, met] = [limits.instructions, instructions].map(grouped);
    let [most_stack, met_stack] = [limits.stack, stack].map(grouped);
    Ok(format!(
        "| `{call}` | {most} | {met} | {most_stack} | {met_stack} | {place} |\n"
    ))
}
