//! How deep the stack is at each instruction of a function.

use std::collections::BTreeMap;

use crate::graph::Graph;
use crate::instruction::Flow;
use crate::listing::Function;

/// The return address, which the caller's call puts there.
pub const RETURN_ADDRESS: u64 = 8;

/// What a function takes of the stack by itself. Bytes are counted from where the stack pointer was before the call.
pub struct Frame {
    /// The return address counted.
    pub deepest: u64,
    /// The most bytes below the stack pointer that are used, without moving it.
    pub below: u64,
    /// The depth at each call, and at a jump to another function without the return address, which that one takes over.
    pub at_calls: BTreeMap<usize, u64>,
}

pub fn frame(function: &Function, graph: &Graph) -> Result<Frame, String> {
    let mut frame = Frame {
        deepest: RETURN_ADDRESS,
        below: 0,
        at_calls: BTreeMap::new(),
    };
    for (at, depth) in depths(function, graph)? {
        let instruction = &function.instructions[at];
        let below = instruction.below()?;
        let after = changed(depth, instruction.growth()?).ok_or_else(|| instruction.refused(TOO_FAR))?;
        frame.deepest = frame.deepest.max(depth + below).max(after);
        frame.below = frame.below.max(below);
        let leaves = graph.edges[&at].is_empty() && instruction.flow()? != Flow::Never;
        if leaves && depth != RETURN_ADDRESS {
            return Err(instruction.refused("leaves with a stack that is not the caller's"));
        }
        if graph.callees.contains_key(&at) {
            frame.at_calls.insert(at, if leaves { 0 } else { depth });
        }
    }
    Ok(frame)
}

const TOO_FAR: &str = "takes more from the stack than the function put there";

/// The depth before each instruction, which must be the same on every way to it.
fn depths(function: &Function, graph: &Graph) -> Result<BTreeMap<usize, u64>, String> {
    let mut depths = BTreeMap::from([(0, RETURN_ADDRESS)]);
    let mut ahead = vec![0];
    while let Some(at) = ahead.pop() {
        let instruction = &function.instructions[at];
        let after =
            changed(depths[&at], instruction.growth()?).ok_or_else(|| instruction.refused(TOO_FAR))?;
        for &next in &graph.edges[&at] {
            match depths.insert(next, after) {
                None => ahead.push(next),
                Some(known) if known == after => {}
                Some(_) => {
                    return Err(function.instructions[next].refused("is reached with two depths of stack"))
                }
            }
        }
    }
    Ok(depths)
}

/// The depth after an instruction; none if the return address would be gone.
fn changed(depth: u64, growth: i64) -> Option<u64> {
    depth
        .checked_add_signed(growth)
        .filter(|&depth| depth >= RETURN_ADDRESS)
}
