//! How a task goes on after an access: its next record, and the answer of the step.

use crate::cells::{has_mark, with_mark, Announcement, Head};
use crate::machine::{Answer, Outcome};
use crate::phase::Phase;
use crate::record::Record;
use crate::reply::Reply;
use crate::table::Table;

/// The new record and the answer; sees no cell.
pub fn advance(table: &Table, tasks: usize, task: usize, old: &Record, outcome: Outcome) -> (Record, Answer) {
    let record = Record {
        steps: old.steps + 1,
        ..*old
    };
    match (record.known_phase(), outcome) {
        (Phase::ReadOnly, Outcome::Word(head)) => {
            let state = usize::from(Head::decode(head).state);
            ended(record, table.reply(state, usize::from(record.operation)))
        }
        (Phase::Retract, Outcome::Written) => ended(record, Reply::of_payload(record.payload)),
        (Phase::Announce, Outcome::Written) => running(record.bare_in_phase(Phase::Poll)),
        (phase, Outcome::Word(word)) => running(after_read(task, record, phase, word)),
        (phase, Outcome::Swapped(yes)) => running(after_swap(tasks, task, record, phase, yes)),
        (phase, Outcome::Written) => panic!("{phase:?} does not write"),
    }
}

fn running(record: Record) -> (Record, Answer) {
    (record, Answer::Running)
}

fn ended(record: Record, reply: Reply) -> (Record, Answer) {
    let answer = Answer::Ended {
        response: reply.response,
        moved: reply.moved,
        steps: record.steps,
    };
    (Record::idle(record.priority), answer)
}

fn after_read(task: usize, record: Record, phase: Phase, word: u64) -> Record {
    let marked = has_mark(word, task);
    match phase {
        Phase::Poll => after_poll(record, word),
        Phase::LoadHead => record.bare_in_phase(Phase::LinkHead).with_head(word),
        Phase::LoadPriority => after_load_priority(record, word),
        Phase::LoadOwn => after_load_own(task, record, word),
        Phase::LoadExit => after_load_exit(task, record, word),
        Phase::ReloadClear if marked => record.bare_in_phase(Phase::ClearHead).with_head(word),
        Phase::ReloadApply(other) if marked => record.with_payload_in(Phase::Apply(other)).with_head(word),
        Phase::ReloadClear | Phase::ReloadApply(_) => record.bare_in_phase(Phase::Poll),
        Phase::LoadHelped(other) => record
            .with_head_in(Phase::LinkHelped(other))
            .with_announcement(word),
        Phase::Validate(other) if marked => record.with_both_in(Phase::HandOver(other)),
        Phase::Validate(other) => record.with_both_in(Phase::Release(other)),
        Phase::ReloadHandOver(other) if marked => record
            .with_head_in(Phase::HandOver(other))
            .with_announcement(word),
        Phase::ReloadRelease(other) if marked => {
            record.with_head_in(Phase::Release(other)).with_announcement(word)
        }
        Phase::ReloadHandOver(_) | Phase::ReloadRelease(_) => go_on_with_head(record),
        other => panic!("{other:?} does not read"),
    }
}

fn after_poll(record: Record, word: u64) -> Record {
    match Announcement::decode(word) {
        Announcement::Response(reply) => leave(record, reply),
        _ => record.bare_in_phase(Phase::LoadHead),
    }
}

fn after_load_priority(record: Record, word: u64) -> Record {
    match Announcement::decode(word) {
        Announcement::Operation(operation) => apply(record, usize::from(record.priority), operation),
        _ => record.with_head_in(Phase::LoadOwn),
    }
}

fn after_load_own(task: usize, record: Record, word: u64) -> Record {
    match Announcement::decode(word) {
        Announcement::Operation(operation) => apply(record, task, operation),
        Announcement::Response(reply) => leave(record, reply),
        Announcement::Empty => record.bare_in_phase(Phase::Poll),
    }
}

fn after_load_exit(task: usize, record: Record, word: u64) -> Record {
    let held = Head::decode(word).is_held_by(task);
    let phase = match (held, has_mark(word, task)) {
        (true, true) => Phase::ClearExit,
        (true, false) => Phase::LinkExit,
        (false, true) => Phase::ReleaseExit,
        (false, false) => return record.with_payload_in(Phase::Retract),
    };
    record.with_payload_in(phase).with_head(word)
}

fn after_swap(tasks: usize, task: usize, record: Record, phase: Phase, yes: bool) -> Record {
    match (phase, yes) {
        (Phase::LinkHead, true) => after_link_head(record, with_mark(record.head, task)),
        (Phase::LinkHead, false) => record.bare_in_phase(Phase::Poll),
        (Phase::LinkExit, true) => record
            .with_payload_in(Phase::ClearExit)
            .with_head(with_mark(record.head, task)),
        (Phase::ClearExit | Phase::ReleaseExit, true) => record.with_payload_in(Phase::Retract),
        (Phase::LinkExit | Phase::ClearExit | Phase::ReleaseExit, false) => {
            record.with_payload_in(Phase::LoadExit)
        }
        (Phase::ClearHead, true) => record.bare_in_phase(Phase::Poll),
        (Phase::ClearHead, false) => record.with_head_in(Phase::ReloadClear),
        (Phase::Apply(_), true) => Record {
            priority: ((usize::from(record.priority) + 1) % tasks) as u8,
            ..record.bare_in_phase(Phase::Poll)
        },
        (Phase::Apply(other), false) => record
            .with_payload_in(Phase::ReloadApply(other))
            .with_head(record.head),
        (Phase::LinkHelped(other), true) => after_link_helped(task, record, other),
        (Phase::LinkHelped(_), false) => record.bare_in_phase(Phase::Poll),
        (Phase::HandOver(_) | Phase::Release(_), true) => go_on_with_head(record),
        (Phase::HandOver(other), false) => record.with_both_in(Phase::ReloadHandOver(other)),
        (Phase::Release(other), false) => record.with_both_in(Phase::ReloadRelease(other)),
        (other, _) => panic!("{other:?} does not swap"),
    }
}

fn after_link_head(record: Record, word: u64) -> Record {
    let phase = match Head::decode(word).holder {
        None => Phase::LoadPriority,
        Some(holder) => Phase::LoadHelped(holder.task),
    };
    record.bare_in_phase(phase).with_head(word)
}

fn after_link_helped(task: usize, record: Record, other: usize) -> Record {
    let phase = match Announcement::decode(record.announcement) {
        Announcement::Operation(_) => Phase::Validate(other),
        _ => Phase::Release(other),
    };
    record
        .with_head_in(phase)
        .with_announcement(with_mark(record.announcement, task))
}

fn apply(record: Record, task: usize, operation: u16) -> Record {
    record
        .with_head_in(Phase::Apply(task))
        .with_payload(u32::from(operation))
}

/// The own reply has been found: on to the exit.
fn leave(record: Record, reply: Reply) -> Record {
    record
        .bare_in_phase(Phase::LoadExit)
        .with_payload(reply.to_payload())
}

fn go_on_with_head(record: Record) -> Record {
    record.with_head_in(Phase::ClearHead)
}

#[cfg(test)]
mod tests {
    use super::*;
    use crate::machine::{perform, plan};
    use crate::objects::flag;

    #[test]
    fn a_task_alone_goes_through_17_phases() {
        let table = flag();
        let mut cells = [0, 0];
        let mut record = Record {
            operation: 1,
            ..Record::idle(0).with_phase(Phase::Announce)
        };
        let mut phases = Vec::new();
        while record.is_pending() {
            phases.push(record.phase);
            let outcome = perform(&mut cells, plan(&table, 0, &record));
            (record, _) = advance(&table, 1, 0, &record, outcome);
        }
        assert_eq!(phases, [2, 3, 4, 5, 6, 16, 3, 4, 5, 32, 40, 48, 56, 13, 3, 8, 12]);
        assert_eq!(cells, [0x100, 0]);
    }

    /// What follows a step of task 1 in a phase, with a payload.
    fn after(phase: Phase, payload: u32, outcome: Outcome) -> (Record, Answer) {
        let record = Record::idle(0).with_phase(phase).with_payload(payload);
        advance(&flag(), 2, 1, &record, outcome)
    }

    #[test]
    fn who_finds_the_own_reply_takes_response_and_moved_bit_along() {
        for phase in [Phase::Poll, Phase::LoadOwn] {
            for (word, payload) in [
                (0x01ff_0202, 0x1_00ff),
                (0x00ff_0200, 0xff),
                (0x0100_0200, 0x1_0000),
            ] {
                let (record, answer) = after(phase, 0, Outcome::Word(word));
                assert_eq!((record.known_phase(), record.payload), (Phase::LoadExit, payload));
                assert_eq!(answer, Answer::Running);
            }
        }
    }

    #[test]
    fn the_exit_carries_the_payload_as_it_is() {
        const PAYLOAD: u32 = 0xfff1_00ff;
        let read = [0x1201_0002, 0x1201_0000, 0x1101_0002, 0x1101_0000].map(Outcome::Word);
        let reads = read.map(|word| (Phase::LoadExit, word));
        let swaps = [Phase::LinkExit, Phase::ClearExit, Phase::ReleaseExit]
            .into_iter()
            .flat_map(|phase| [true, false].map(|made| (phase, Outcome::Swapped(made))));
        for (phase, outcome) in reads.into_iter().chain(swaps) {
            assert_eq!(after(phase, PAYLOAD, outcome).0.payload, PAYLOAD, "{phase:?}");
        }
    }

    #[test]
    fn the_end_tells_response_and_moved_bit_of_the_payload_and_no_other_bit() {
        let told = |payload: u32| after(Phase::Retract, payload, Outcome::Written).1;
        let ended = |response: u16, moved: bool| Answer::Ended {
            response,
            moved,
            steps: 1,
        };
        assert_eq!(told(0), ended(0, false));
        assert_eq!(told(0x1_00ff), ended(255, true));
        assert_eq!(told(0xfffe_00ff), ended(255, false));
        assert_eq!(told(u32::MAX), ended(u16::MAX, true));
    }

    #[test]
    fn the_priority_advances_with_an_application_alone() {
        let last = Record::idle(2).with_phase(Phase::Apply(0));
        let (record, _) = advance(&flag(), 3, 1, &last, Outcome::Swapped(true));
        assert_eq!((record.priority, record.known_phase()), (0, Phase::Poll));
        let (record, _) = advance(&flag(), 3, 1, &last, Outcome::Swapped(false));
        assert_eq!(
            (record.priority, record.known_phase()),
            (2, Phase::ReloadApply(0))
        );
    }
}
