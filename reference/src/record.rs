//! The private record of a task and its form.

use crate::ceiling::ceiling;
use crate::cells::{announcement_in_form, head_in_form};
use crate::phase::Phase;
use crate::table::Table;

/// A field that the phase does not use is 0. The priority lives on between operations.
#[derive(Clone, Copy, Debug, PartialEq, Eq, Default)]
pub struct Record {
    pub phase: u8,
    pub operation: u16,
    pub priority: u8,
    /// An operation that is to be applied, or the own reply.
    pub payload: u32,
    pub head: u64,
    pub announcement: u64,
    pub steps: u32,
}

impl Record {
    pub fn idle(priority: u8) -> Record {
        Record {
            priority,
            ..Record::default()
        }
    }

    /// The record in another phase, its saved words and its payload dropped.
    pub fn bare_in_phase(self, phase: Phase) -> Record {
        Record {
            phase: phase.number(),
            payload: 0,
            head: 0,
            announcement: 0,
            ..self
        }
    }

    /// The record in another phase that keeps the payload alone.
    pub fn with_payload_in(self, phase: Phase) -> Record {
        self.bare_in_phase(phase).with_payload(self.payload)
    }

    /// The record in another phase that keeps the saved head alone.
    pub fn with_head_in(self, phase: Phase) -> Record {
        self.bare_in_phase(phase).with_head(self.head)
    }

    /// The record in another phase that keeps both saved words.
    pub fn with_both_in(self, phase: Phase) -> Record {
        self.with_head_in(phase).with_announcement(self.announcement)
    }

    /// The record in another phase, all else kept.
    pub fn with_phase(self, phase: Phase) -> Record {
        Record {
            phase: phase.number(),
            ..self
        }
    }

    pub fn with_payload(self, payload: u32) -> Record {
        Record { payload, ..self }
    }

    pub fn with_head(self, head: u64) -> Record {
        Record { head, ..self }
    }

    pub fn with_announcement(self, announcement: u64) -> Record {
        Record { announcement, ..self }
    }

    pub fn is_pending(&self) -> bool {
        self.phase != Phase::Idle.number()
    }

    /// The phase of a record in form.
    pub fn known_phase(&self) -> Phase {
        Phase::of_number(self.phase).expect("the record is in form")
    }

    pub fn is_in_form(&self, table: &Table, tasks: usize) -> bool {
        match Phase::of_number(self.phase) {
            None => false,
            Some(Phase::Idle) => *self == Record::idle(self.priority) && usize::from(self.priority) < tasks,
            Some(phase) => self.is_pending_form(phase, table, tasks),
        }
    }

    fn is_pending_form(&self, phase: Phase, table: &Table, tasks: usize) -> bool {
        let operation_fits = |number: u64| number < table.operations as u64;
        phase.named_task().is_none_or(|task| task < tasks)
            && usize::from(self.priority) < tasks
            && ceiling(tasks).is_ok_and(|most| self.steps < most)
            && operation_fits(u64::from(self.operation))
            && (!phase.keeps_operation() || operation_fits(u64::from(self.payload)))
            && head_in_form(self.head, table.states, tasks)
            && announcement_in_form(self.announcement, table.operations, tasks)
    }
}

#[cfg(test)]
mod tests {
    use super::*;
    use crate::objects::flag;

    fn in_form(record: Record, tasks: usize) -> bool {
        record.is_in_form(&flag(), tasks)
    }

    #[test]
    fn an_idle_record_keeps_its_priority_and_nothing_else() {
        assert!(in_form(Record::idle(1), 2));
        assert!(!in_form(Record::idle(2), 2));
        assert!(!in_form(Record::idle(0).with_payload(1), 2));
        assert!(!in_form(Record::idle(0).with_head(0x100), 2));
        assert!(!in_form(
            Record {
                steps: 1,
                ..Record::idle(0)
            },
            2
        ));
        assert!(!in_form(
            Record {
                operation: 1,
                ..Record::idle(0)
            },
            2
        ));
    }

    #[test]
    fn unknown_phases_are_out_of_form() {
        for phase in [15, 88, 255] {
            assert!(!in_form(
                Record {
                    phase,
                    ..Record::idle(0)
                },
                8
            ));
        }
    }

    #[test]
    fn the_task_of_a_phase_is_below_the_number_of_tasks() {
        for phase in [Phase::Apply(2), Phase::LoadHelped(2), Phase::ReloadRelease(2)] {
            assert!(in_form(Record::idle(0).bare_in_phase(phase), 3));
            assert!(!in_form(Record::idle(0).bare_in_phase(phase), 2));
        }
    }

    #[test]
    fn fields_of_a_pending_record_keep_to_their_ranges() {
        let poll = Record::idle(0).bare_in_phase(Phase::Poll);
        assert!(in_form(Record { operation: 2, ..poll }, 2));
        assert!(!in_form(Record { operation: 3, ..poll }, 2));
        assert!(!in_form(Record { priority: 2, ..poll }, 2));
        assert!(in_form(Record { steps: 7_999, ..poll }, 2));
        assert!(!in_form(Record { steps: 8_000, ..poll }, 2));
        assert!(!in_form(poll.with_head(0x0001_0000), 2));
        assert!(!in_form(poll.with_announcement(0x300), 2));
        assert!(in_form(poll.with_head(0x1100_0000), 2));
        assert!(!in_form(poll.with_head(0x1000_0000), 2));
        assert!(in_form(poll.with_announcement(0x0100_0200), 2));
        assert!(!in_form(poll.with_announcement(0x0100_0100), 2));
    }

    #[test]
    fn the_holder_of_a_saved_head_is_one_of_the_tasks() {
        for phase in [Phase::Poll, Phase::LinkHead, Phase::HandOver(0)] {
            let pending = Record::idle(0).bare_in_phase(phase);
            for tasks in 1..=8 {
                for holder in 0..16 {
                    let record = pending.with_head(holder << 24);
                    assert_eq!(in_form(record, tasks), holder <= tasks as u64, "{record:?}");
                }
            }
        }
    }

    #[test]
    fn the_payload_is_an_operation_only_in_apply_phases() {
        let apply = Record::idle(0).bare_in_phase(Phase::Apply(0));
        assert!(in_form(apply.with_payload(2), 1));
        assert!(!in_form(apply.with_payload(3), 1));
        for payload in [255, 0x1_00ff, u32::MAX] {
            let retract = Record::idle(0).bare_in_phase(Phase::Retract);
            assert!(in_form(retract.with_payload(payload), 1));
        }
    }
}
