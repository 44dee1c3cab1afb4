//! The step machine: the access of a step follows from the record; how the task goes on, from what the access gave back.

use crate::cells::{with_mark, without_mark, Announcement, Head, Holder};
use crate::phase::Phase;
use crate::record::Record;
use crate::reply::Reply;
use crate::table::Table;

pub use crate::advance::advance;

#[derive(Clone, Copy, Debug, PartialEq, Eq)]
pub enum Action {
    Read,
    Write(u64),
    Swap { old: u64, new: u64 },
}

/// One access to one cell, known before the cell is looked at.
#[derive(Clone, Copy, Debug, PartialEq, Eq)]
pub struct Access {
    pub cell: usize,
    pub action: Action,
}

/// What an access gives back.
#[derive(Clone, Copy, Debug, PartialEq, Eq)]
pub enum Outcome {
    Word(u64),
    Swapped(bool),
    Written,
}

#[derive(Clone, Copy, Debug, PartialEq, Eq)]
pub enum Answer {
    Running,
    Ended { response: u16, moved: bool, steps: u32 },
}

pub const HEAD_CELL: usize = 0;

pub fn announcement_cell(task: usize) -> usize {
    task + 1
}

/// The access of the next step; sees no cell.
pub fn plan(table: &Table, task: usize, record: &Record) -> Access {
    match record.known_phase() {
        Phase::Idle => panic!("an idle task has no next step"),
        Phase::ReadOnly
        | Phase::LoadHead
        | Phase::LoadExit
        | Phase::ReloadClear
        | Phase::ReloadApply(_)
        | Phase::Validate(_) => on_head(Action::Read),
        Phase::Announce => {
            let announced = Announcement::Operation(record.operation).encode();
            on_announcement(task, Action::Write(announced))
        }
        Phase::Retract => on_announcement(task, Action::Write(Announcement::Empty.encode())),
        Phase::Poll | Phase::LoadOwn => on_announcement(task, Action::Read),
        Phase::LoadPriority => on_announcement(usize::from(record.priority), Action::Read),
        Phase::LoadHelped(other) | Phase::ReloadHandOver(other) | Phase::ReloadRelease(other) => {
            on_announcement(other, Action::Read)
        }
        Phase::LinkHead | Phase::LinkExit => swap_head(record, with_mark(record.head, task)),
        Phase::ReleaseExit => swap_head(record, without_mark(record.head, task)),
        Phase::ClearExit | Phase::ClearHead => swap_head(record, without_holder(record.head)),
        Phase::Apply(other) => swap_head(record, applied(table, record, other)),
        Phase::LinkHelped(other) => swap_announcement(other, record, with_mark(record.announcement, task)),
        Phase::Release(other) => swap_announcement(other, record, without_mark(record.announcement, task)),
        Phase::HandOver(other) => swap_announcement(other, record, handed_over(record)),
    }
}

fn on_head(action: Action) -> Access {
    Access {
        cell: HEAD_CELL,
        action,
    }
}

fn on_announcement(task: usize, action: Action) -> Access {
    Access {
        cell: announcement_cell(task),
        action,
    }
}

fn swap_head(record: &Record, new: u64) -> Access {
    on_head(Action::Swap {
        old: record.head,
        new,
    })
}

fn swap_announcement(task: usize, record: &Record, new: u64) -> Access {
    let old = record.announcement;
    on_announcement(task, Action::Swap { old, new })
}

/// The head's state alone: no holder with its reply, no marks.
fn without_holder(head: u64) -> u64 {
    let state = Head::decode(head).state;
    Head { state, holder: None }.encode()
}

/// The head after the payload's operation is applied for a task to the saved head's state.
fn applied(table: &Table, record: &Record, task: usize) -> u64 {
    let (state, operation) = entry_of_apply(record);
    let holder = Holder {
        task,
        reply: table.reply(state, operation),
    };
    Head {
        state: table.entry(state, operation).next,
        holder: Some(holder),
    }
    .encode()
}

/// State and operation of the entry that an Apply phase uses.
pub fn entry_of_apply(record: &Record) -> (usize, usize) {
    let state = Head::decode(record.head).state;
    (usize::from(state), record.payload as usize)
}

/// The announcement that carries the saved head's reply to its task.
fn handed_over(record: &Record) -> u64 {
    let reply = Head::decode(record.head)
        .holder
        .map_or(Reply::default(), |holder| holder.reply);
    Announcement::Response(reply).encode()
}

/// Makes the access on its cell.
pub fn perform(cells: &mut [u64], access: Access) -> Outcome {
    let cell = &mut cells[access.cell];
    match access.action {
        Action::Read => Outcome::Word(*cell),
        Action::Write(word) => {
            *cell = word;
            Outcome::Written
        }
        Action::Swap { old, new } => {
            let equal = *cell == old;
            if equal {
                *cell = new;
            }
            Outcome::Swapped(equal)
        }
    }
}

#[cfg(test)]
mod tests {
    use super::*;
    use crate::objects::flag;

    fn planned(phase: Phase, record: Record) -> Access {
        plan(&flag(), 1, &record.with_phase(phase))
    }

    #[test]
    fn swaps_compare_with_the_saved_word() {
        let saved = Record::idle(0)
            .with_head(0x0101_0102)
            .with_announcement(0x0001_0102);
        let swap = |old, new| Action::Swap { old, new };
        let head = |new| on_head(swap(0x0101_0102, new));
        let announcement = |new| on_announcement(0, swap(0x0001_0102, new));
        assert_eq!(planned(Phase::LinkHead, saved), head(0x0101_0102));
        assert_eq!(planned(Phase::ReleaseExit, saved), head(0x0101_0100));
        assert_eq!(planned(Phase::ClearExit, saved), head(0x100));
        assert_eq!(planned(Phase::ClearHead, saved), head(0x100));
        assert_eq!(planned(Phase::Apply(0), saved.with_payload(1)), head(0x0101_0100));
        assert_eq!(planned(Phase::Apply(0), saved.with_payload(2)), head(0x1101_0000));
        assert_eq!(planned(Phase::LinkHelped(0), saved), announcement(0x0001_0102));
        assert_eq!(planned(Phase::Release(0), saved), announcement(0x0001_0100));
        assert_eq!(planned(Phase::HandOver(0), saved), announcement(0x0001_0200));
    }

    #[test]
    fn the_moved_bit_is_handed_over_and_cleared_with_the_response() {
        let new_word = |phase, head| match planned(phase, Record::idle(0).with_head(head)).action {
            Action::Swap { new, .. } => new,
            other => panic!("{other:?} is no swap"),
        };
        assert_eq!(new_word(Phase::HandOver(0), 0x1100_0102), 0x0100_0200);
        assert_eq!(new_word(Phase::HandOver(0), 0x0100_0102), 0x0000_0200);
        assert_eq!(new_word(Phase::HandOver(0), 0x102), 0x200);
        for clear in [Phase::ClearHead, Phase::ClearExit] {
            assert_eq!(new_word(clear, 0x1201_0102), 0x100);
        }
        for linked in [Phase::LinkHead, Phase::LinkExit] {
            assert_eq!(new_word(linked, 0x1100_0100), 0x1100_0102);
        }
        assert_eq!(new_word(Phase::ReleaseExit, 0x1100_0102), 0x1100_0100);
    }

    #[test]
    fn the_priority_decides_which_announcement_is_loaded() {
        let access = planned(Phase::LoadPriority, Record::idle(0));
        assert_eq!(access, on_announcement(0, Action::Read));
        let access = planned(Phase::LoadOwn, Record::idle(0));
        assert_eq!(access, on_announcement(1, Action::Read));
    }

    #[test]
    fn accesses_give_back_what_they_should() {
        let mut cells = [5, 6];
        let read = perform(&mut cells, on_head(Action::Read));
        let written = perform(&mut cells, on_announcement(0, Action::Write(7)));
        let failed = perform(&mut cells, on_head(Action::Swap { old: 4, new: 9 }));
        let made = perform(&mut cells, on_announcement(0, Action::Swap { old: 7, new: 8 }));
        assert_eq!(read, Outcome::Word(5));
        assert_eq!(written, Outcome::Written);
        assert_eq!((failed, made), (Outcome::Swapped(false), Outcome::Swapped(true)));
        assert_eq!(cells, [5, 8]);
    }
}
