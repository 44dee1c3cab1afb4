//! The phases of a task's record, as docs/RECORDS.md has them: which cell the next step touches, and by which access.

use drive_object::Task;

/// How a step touches its cell.
#[derive(Clone, Copy, PartialEq, Eq, Debug)]
pub enum Access {
    Read,
    Write,
    Swap,
}

/// What a step is there for.
#[derive(Clone, Copy, PartialEq, Eq, Debug)]
pub enum Purpose {
    Read,
    Announce,
    Link,
    Apply,
    HandOver,
    Clear,
    Release,
    Retract,
}

impl Purpose {
    pub fn access(self) -> Access {
        match self {
            Purpose::Read => Access::Read,
            Purpose::Announce | Purpose::Retract => Access::Write,
            _ => Access::Swap,
        }
    }
}

/// Which cell a phase touches.
#[derive(Clone, Copy)]
enum Place {
    Head,
    Own,
    Priority,
    /// The announcement of the task that the phase names.
    Named,
}

struct Row {
    name: &'static str,
    purpose: Purpose,
    place: Place,
}

const fn row(name: &'static str, purpose: Purpose, place: Place) -> Row {
    Row { name, purpose, place }
}

/// Phases 1 to 14.
const SINGLE: [Row; 14] = [
    row("ReadOnly", Purpose::Read, Place::Head),
    row("Announce", Purpose::Announce, Place::Own),
    row("Poll", Purpose::Read, Place::Own),
    row("LoadHead", Purpose::Read, Place::Head),
    row("LinkHead", Purpose::Link, Place::Head),
    row("LoadPriority", Purpose::Read, Place::Priority),
    row("LoadOwn", Purpose::Read, Place::Own),
    row("LoadExit", Purpose::Read, Place::Head),
    row("LinkExit", Purpose::Link, Place::Head),
    row("ClearExit", Purpose::Clear, Place::Head),
    row("ReleaseExit", Purpose::Release, Place::Head),
    row("Retract", Purpose::Retract, Place::Own),
    row("ClearHead", Purpose::Clear, Place::Head),
    row("ReloadClear", Purpose::Read, Place::Head),
];

/// Phases from 16 up, eight numbers for each, one for each task that they may name.
const RANGES: [Row; 9] = [
    row("Apply", Purpose::Apply, Place::Head),
    row("ReloadApply", Purpose::Read, Place::Head),
    row("LoadHelped", Purpose::Read, Place::Named),
    row("LinkHelped", Purpose::Link, Place::Named),
    row("Validate", Purpose::Read, Place::Head),
    row("HandOver", Purpose::HandOver, Place::Named),
    row("ReloadHandOver", Purpose::Read, Place::Named),
    row("Release", Purpose::Release, Place::Named),
    row("ReloadRelease", Purpose::Read, Place::Named),
];

const FIRST_RANGE: usize = 16;
const RANGE: usize = 8;

/// Whether a record has no operation pending.
pub fn is_idle(record: &Task) -> bool {
    record.phase == 0
}

/// Whether the operation that begin has left a record for is changing: begin leaves phase 2 then, and phase 1 for a
/// reading one.
pub fn begun_changing(record: &Task) -> Option<bool> {
    match record.phase {
        1 => Some(false),
        2 => Some(true),
        _ => None,
    }
}

/// What the next step of a task does, by its record.
#[derive(Clone, PartialEq, Eq, Debug)]
pub struct Planned {
    pub phase: String,
    pub purpose: Purpose,
    pub cell: usize,
    /// The word that a swap compares the cell with.
    pub compared: u64,
}

/// The plan of a pending task's record, whose phase is one of docs/RECORDS.md.
pub fn planned(task: usize, record: &Task) -> Option<Planned> {
    let number = record.phase as usize;
    let (row, named) = match number.checked_sub(FIRST_RANGE) {
        Some(above) => (RANGES.get(above / RANGE)?, Some(above % RANGE)),
        None => (SINGLE.get(number.checked_sub(1)?)?, None),
    };
    let phase = match named {
        Some(named) => format!("{} {named}", row.name),
        None => row.name.into(),
    };
    let cell = match row.place {
        Place::Head => 0,
        Place::Own => task + 1,
        Place::Priority => usize::from(record.priority) + 1,
        Place::Named => named? + 1,
    };
    let compared = if cell == 0 {
        record.head
    } else {
        record.announcement
    };
    Some(Planned {
        phase,
        purpose: row.purpose,
        cell,
        compared,
    })
}
