//! The operands of an instruction as objdump prints them: registers, memory, constants, and places that relocations name.

/// What a relocation names: a section or a symbol, and how many bytes behind it.
#[derive(Clone, Debug, PartialEq, Eq)]
pub struct Place {
    pub name: String,
    pub offset: i64,
}

impl Place {
    /// `name`, `name+0x1c` or `name-0x4`.
    pub fn parse(text: &str) -> Place {
        let at = text.rfind("+0x").or_else(|| text.rfind("-0x"));
        let split = at.and_then(|at| Some((&text[..at], number(&text[at..])?)));
        let (name, offset) = split.unwrap_or((text, 0));
        Place {
            name: name.to_string(),
            offset,
        }
    }
}

/// The names of each register, the widest first, for those that have names of their own.
const REGISTERS: [[&str; 5]; 8] = [
    ["rax", "eax", "ax", "al", "ah"],
    ["rbx", "ebx", "bx", "bl", "bh"],
    ["rcx", "ecx", "cx", "cl", "ch"],
    ["rdx", "edx", "dx", "dl", "dh"],
    ["rsi", "esi", "si", "sil", "sil"],
    ["rdi", "edi", "di", "dil", "dil"],
    ["rbp", "ebp", "bp", "bpl", "bpl"],
    ["rsp", "esp", "sp", "spl", "spl"],
];

/// A memory operand: `displacement(base,index,scale)`.
pub struct Memory {
    pub displacement: i64,
    pub base: String,
    pub indexed: bool,
}

impl Memory {
    pub fn parse(operand: &str) -> Option<Memory> {
        let (displacement, rest) = operand.split_once('(')?;
        let mut parts = rest.strip_suffix(')')?.split(',');
        let base = parts.next().unwrap_or("").strip_prefix('%').unwrap_or("");
        Some(Memory {
            displacement: match displacement {
                "" => 0,
                text => number(text)?,
            },
            base: base.to_string(),
            indexed: parts.next().is_some(),
        })
    }

    /// Whether it lies at a known distance from the stack pointer.
    pub fn is_plain_stack(&self) -> bool {
        self.base == "rsp" && !self.indexed
    }
}

/// The widest name of a register operand.
pub fn register(operand: &str) -> Option<String> {
    let name = operand.strip_prefix('%')?;
    if let Some(names) = REGISTERS.iter().find(|names| names.contains(&name)) {
        return Some(names[0].to_string());
    }
    let digits: String = name
        .strip_prefix('r')?
        .chars()
        .take_while(char::is_ascii_digit)
        .collect();
    (!digits.is_empty()).then(|| format!("r{digits}"))
}

/// Parts between commas that stand in no parentheses.
pub fn split(text: &str) -> Vec<String> {
    let mut parts = vec![String::new()];
    let mut depth = 0;
    for c in text.chars() {
        match c {
            '(' => depth += 1,
            ')' => depth -= 1,
            _ => {}
        }
        match (c, depth) {
            (',', 0) => parts.push(String::new()),
            _ => parts.last_mut().expect("never empty").push(c),
        }
    }
    parts.retain(|part| !part.is_empty());
    parts
}

/// `0x1c`, `-0x4` or `+0x1c`; 64 bits that stand for a negative number too.
fn number(text: &str) -> Option<i64> {
    let (negative, rest) = match text.strip_prefix('-') {
        Some(rest) => (true, rest),
        None => (false, text.strip_prefix('+').unwrap_or(text)),
    };
    let value = u64::from_str_radix(rest.strip_prefix("0x")?, 16).ok()? as i64;
    Some(if negative { value.wrapping_neg() } else { value })
}

/// `$0x88`.
pub fn immediate(operand: &str) -> Option<i64> {
    number(operand.strip_prefix('$')?)
}
