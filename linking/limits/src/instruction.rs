//! One instruction as objdump prints it: where control goes on, and what it does to the stack pointer. Ways of doing
//! either that are not followed are refused.

use std::collections::BTreeSet;

use crate::operand::{immediate, register, split, Memory, Place};

#[derive(Clone, Debug)]
pub struct Instruction {
    pub address: u64,
    pub mnemonic: String,
    pub operands: Vec<String>,
    /// Of the instruction's displacement, counted from the instruction's end.
    pub relocation: Option<Place>,
}

/// Where control goes after an instruction.
#[derive(Clone, Copy, Debug, PartialEq, Eq)]
pub enum Flow {
    On,
    Jump,
    Branch,
    JumpByTable,
    Call,
    Return,
    Never,
}

/// Words before an instruction's name that change nothing here.
const PREFIXES: [&str; 11] = [
    "addr32", "bnd", "cs", "data16", "ds", "es", "fs", "gs", "lock", "notrack", "ss",
];

/// Instructions that leave the function, or change the stack pointer, in ways that are not followed; and those that
/// repeat themselves.
const REFUSED: [&str; 18] = [
    "(bad)", "enter", "hlt", "int", "int3", "iret", "lcall", "leave", "ljmp", "lret", "popf", "pushf", "rep",
    "repnz", "repz", "syscall", "sysenter", "xbegin",
];

/// Instructions whose last operand is only read.
const READING: [&str; 3] = ["bt", "cmp", "test"];

impl Instruction {
    /// From the text behind the address, such as `mov    0x8(%rsi),%rax`.
    pub fn parse(address: u64, text: &str) -> Instruction {
        let text = text.split(" #").next().unwrap_or(text);
        let mut words = text.split_whitespace().skip_while(|word| is_prefix(word));
        let mnemonic = words.next().unwrap_or("(bad)");
        let rest: Vec<&str> = words.collect();
        Instruction {
            address,
            mnemonic: plain(mnemonic),
            operands: split(&rest.join(" ")),
            relocation: None,
        }
    }

    pub fn flow(&self) -> Result<Flow, String> {
        let name = self.mnemonic.as_str();
        let indirect = self.operand(0).starts_with('*');
        match name {
            _ if REFUSED.contains(&name) => Err(self.refused("is not followed")),
            "jmp" if indirect && register(&self.operand(0)[1..]).is_some() => Ok(Flow::JumpByTable),
            "jmp" | "call" if indirect => Err(self.refused("has an unknown target")),
            "jmp" => Ok(Flow::Jump),
            "call" => Ok(Flow::Call),
            "ret" if self.operands.is_empty() => Ok(Flow::Return),
            "ret" => Err(self.refused("takes more than the return address")),
            "ud2" => Ok(Flow::Never),
            _ if name.starts_with('j') || name.starts_with("loop") => Ok(Flow::Branch),
            _ => Ok(Flow::On),
        }
    }

    /// The address that a jump names.
    pub fn target(&self) -> Option<u64> {
        let word = self.operand(0).split_whitespace().next()?;
        u64::from_str_radix(word, 16).ok()
    }

    /// By how many bytes the stack grows; a call's return address is not counted here.
    pub fn growth(&self) -> Result<i64, String> {
        let unknown = || self.refused("changes the stack pointer in a way that is not followed");
        let to_pointer = self.last() == "%rsp";
        match self.mnemonic.as_str() {
            "push" | "pop" if !self.moves_eight_bytes() => Err(unknown()),
            "push" => Ok(8),
            "pop" => Ok(-8),
            "call" => Ok(0),
            "sub" if to_pointer => immediate(self.operand(0)).ok_or_else(unknown),
            "add" if to_pointer => immediate(self.operand(0)).map(|bytes| -bytes).ok_or_else(unknown),
            "lea" if to_pointer => match Memory::parse(self.operand(0)) {
                Some(memory) if memory.is_plain_stack() => Ok(-memory.displacement),
                _ => Err(unknown()),
            },
            _ if self.writes("rsp") => Err(unknown()),
            _ => Ok(0),
        }
    }

    /// How far below the stack pointer it writes, or takes an address. Reading there reads what was written there.
    pub fn below(&self) -> Result<u64, String> {
        let takes_address = self.mnemonic == "lea" && self.last() != "%rsp";
        let operand = if takes_address {
            self.operand(0)
        } else {
            self.last()
        };
        match Memory::parse(operand) {
            Some(memory) if memory.base == "rsp" && memory.displacement < 0 => match memory.indexed {
                true => Err(self.refused("writes below the stack pointer at an unknown place")),
                false => Ok(memory.displacement.unsigned_abs()),
            },
            _ => Ok(0),
        }
    }

    /// Whether it may write a register, named by its widest name.
    pub fn writes(&self, widest: &str) -> bool {
        let is_it = |operand: &str| register(operand).as_deref() == Some(widest);
        let one_operand = self.operands.len() < 2;
        match self.mnemonic.as_str() {
            name if READING.contains(&name) => false,
            "push" | "jmp" => false,
            "call" => true,
            "xchg" | "xadd" | "cmpxchg" => {
                self.operands.iter().any(|operand| is_it(operand)) || widest == "rax"
            }
            "div" | "idiv" | "mul" | "imul" if one_operand => widest == "rax" || widest == "rdx",
            "cltd" | "cqto" | "cltq" | "cwtl" => widest == "rax" || widest == "rdx",
            _ => is_it(self.last()),
        }
    }

    /// The vector registers that it names.
    pub fn vector_registers(&self) -> BTreeSet<String> {
        let names = self
            .operands
            .iter()
            .flat_map(|operand| operand.split('%').skip(1));
        let names = names.map(|rest| {
            rest.split(|c: char| !c.is_ascii_alphanumeric())
                .next()
                .unwrap_or("")
        });
        let is_vector = |name: &&str| {
            ["xmm", "ymm", "zmm", "mm", "st"]
                .iter()
                .any(|kind| name.starts_with(kind))
        };
        names.filter(is_vector).map(str::to_string).collect()
    }

    pub fn operand(&self, at: usize) -> &str {
        self.operands.get(at).map_or("", String::as_str)
    }

    pub fn last(&self) -> &str {
        self.operands.last().map_or("", String::as_str)
    }

    pub fn refused(&self, what: &str) -> String {
        let (address, name, operands) = (self.address, &self.mnemonic, self.operands.join(","));
        format!("the instruction at {address:x}, {name} {operands}, {what}")
    }

    /// Whether what is pushed or popped has eight bytes, and a pop leaves the stack pointer to itself.
    fn moves_eight_bytes(&self) -> bool {
        let operand = self.operand(0);
        let constant = self.mnemonic == "push" && operand.starts_with('$');
        constant || operand != "%rsp" && register(operand).is_some_and(|widest| operand[1..] == widest)
    }
}

fn is_prefix(word: &str) -> bool {
    PREFIXES.contains(&word) || word.starts_with("rex")
}

/// Some versions of objdump write the width behind these names.
fn plain(mnemonic: &str) -> String {
    let bare = mnemonic.strip_suffix('q').unwrap_or(mnemonic);
    match bare {
        "call" | "jmp" | "ret" | "push" | "pop" | "pushf" | "popf" | "iret" | "lcall" | "leave" | "ljmp"
        | "lret" => bare.to_string(),
        _ => mnemonic.to_string(),
    }
}
