//! The only numbers that are given by hand: how often loops turn at most, and how deep the calls of a cycle stand in each
//! other.

use crate::cycles::Cycle;
use crate::turns::{Turn, Turns};

#[derive(Clone, Copy)]
pub struct Given<'a> {
    pub turns: &'a [Turns<'a>],
    pub cycles: &'a [Cycle<'a>],
}

const OPERATIONS: Turn = Turn {
    depth: 1,
    most: 32,
    over: "operations",
};
const OPERATIONS_OF_EACH: Turn = Turn {
    depth: 2,
    ..OPERATIONS
};
const STATES: Turn = Turn {
    depth: 1,
    most: 256,
    over: "states",
};
const STATES_AND_THE_END: Turn = Turn {
    most: 257,
    over: "looks at states and their end",
    ..STATES
};
const FOURS_AND_THE_END: Turn = Turn {
    depth: 1,
    most: 2_049,
    over: "looks at four entries and their end",
};
const RINGS: Turn = Turn {
    depth: 1,
    most: 255,
    over: "rings",
};
const RINGS_AND_THE_END: Turn = Turn {
    most: 256,
    over: "looks at rings and their end",
    ..RINGS
};

/// Tests come before the loops: 2 holds states and operations to these numbers, and so the entries to 8,192, 14 the rings, and
/// 19 the targets to one for each state. The search for states takes no state twice. Records have no loop: the compiler writes
/// the eight out. A loop that looks whether it is at the end before each turn begins one turn more than it makes: so do the
/// tests of a list of rings, of the targets and of the entries, and the question whether an operation moves some state.
const TURNS: [Turns<'static>; 8] = [
    ("table::check", &[FOURS_AND_THE_END]),
    (
        "drive_canonical",
        &[STATES, OPERATIONS_OF_EACH, STATES, OPERATIONS_OF_EACH],
    ),
    ("drive_force", &[STATES_AND_THE_END]),
    ("game::our_turn", &[OPERATIONS, OPERATIONS, OPERATIONS_OF_EACH]),
    ("drive::begin_record", &[FOURS_AND_THE_END]),
    (
        "stepping::call::begun_task",
        &[STATES_AND_THE_END, STATES, OPERATIONS_OF_EACH, STATES],
    ),
    ("desk_owner", &[RINGS_AND_THE_END, RINGS]),
    ("desk_table", &[RINGS_AND_THE_END, STATES]),
];

/// Test 19 comes before the first turn, and holds the moves to 4. The code of our turn has that of theirs in it, so it calls
/// itself with two moves less. With no move left it is judged by the state alone.
const CYCLES: [Cycle<'static>; 1] = [Cycle {
    members: &["game::our_turn"],
    most: 4,
    fall: 2,
    over: "moves",
}];

pub const GIVEN: Given<'static> = Given {
    turns: &TURNS,
    cycles: &CYCLES,
};
