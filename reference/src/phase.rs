//! The phases of a task and their numbers. Phases that work for a task are ranges of eight numbers.

use crate::cells::MOST_TASKS;

#[derive(Clone, Copy, Debug, PartialEq, Eq)]
pub enum Phase {
    Idle,
    ReadOnly,
    Announce,
    Poll,
    LoadHead,
    LinkHead,
    LoadPriority,
    LoadOwn,
    LoadExit,
    LinkExit,
    ClearExit,
    ReleaseExit,
    Retract,
    ClearHead,
    ReloadClear,
    Apply(usize),
    ReloadApply(usize),
    LoadHelped(usize),
    LinkHelped(usize),
    Validate(usize),
    HandOver(usize),
    ReloadHandOver(usize),
    Release(usize),
    ReloadRelease(usize),
}

const FIRST_RANGE: u8 = 16;

impl Phase {
    pub fn of_number(number: u8) -> Option<Phase> {
        match number.checked_sub(FIRST_RANGE) {
            None => Phase::of_single_number(number),
            Some(place) => Phase::of_range(usize::from(place) / MOST_TASKS, usize::from(place) % MOST_TASKS),
        }
    }

    fn of_single_number(number: u8) -> Option<Phase> {
        Some(match number {
            0 => Phase::Idle,
            1 => Phase::ReadOnly,
            2 => Phase::Announce,
            3 => Phase::Poll,
            4 => Phase::LoadHead,
            5 => Phase::LinkHead,
            6 => Phase::LoadPriority,
            7 => Phase::LoadOwn,
            8 => Phase::LoadExit,
            9 => Phase::LinkExit,
            10 => Phase::ClearExit,
            11 => Phase::ReleaseExit,
            12 => Phase::Retract,
            13 => Phase::ClearHead,
            14 => Phase::ReloadClear,
            _ => return None,
        })
    }

    fn of_range(range: usize, task: usize) -> Option<Phase> {
        Some(match range {
            0 => Phase::Apply(task),
            1 => Phase::ReloadApply(task),
            2 => Phase::LoadHelped(task),
            3 => Phase::LinkHelped(task),
            4 => Phase::Validate(task),
            5 => Phase::HandOver(task),
            6 => Phase::ReloadHandOver(task),
            7 => Phase::Release(task),
            8 => Phase::ReloadRelease(task),
            _ => return None,
        })
    }

    pub fn number(self) -> u8 {
        let (range, task) = match self {
            Phase::Apply(task) => (0, task),
            Phase::ReloadApply(task) => (1, task),
            Phase::LoadHelped(task) => (2, task),
            Phase::LinkHelped(task) => (3, task),
            Phase::Validate(task) => (4, task),
            Phase::HandOver(task) => (5, task),
            Phase::ReloadHandOver(task) => (6, task),
            Phase::Release(task) => (7, task),
            Phase::ReloadRelease(task) => (8, task),
            single => return single.single_number(),
        };
        FIRST_RANGE + (MOST_TASKS * range + task) as u8
    }

    fn single_number(self) -> u8 {
        match self {
            Phase::Idle => 0,
            Phase::ReadOnly => 1,
            Phase::Announce => 2,
            Phase::Poll => 3,
            Phase::LoadHead => 4,
            Phase::LinkHead => 5,
            Phase::LoadPriority => 6,
            Phase::LoadOwn => 7,
            Phase::LoadExit => 8,
            Phase::LinkExit => 9,
            Phase::ClearExit => 10,
            Phase::ReleaseExit => 11,
            Phase::Retract => 12,
            Phase::ClearHead => 13,
            Phase::ReloadClear => 14,
            range => panic!("{range:?} is not a single phase"),
        }
    }

    /// The task that the phase works for, if its number names one.
    pub fn named_task(self) -> Option<usize> {
        match self {
            Phase::Apply(task) | Phase::ReloadApply(task) => Some(task),
            Phase::LoadHelped(task) | Phase::LinkHelped(task) => Some(task),
            other => other.marked_announcement(),
        }
    }

    /// The task on whose announcement a phase from Validate to ReloadRelease may have its mark.
    pub fn marked_announcement(self) -> Option<usize> {
        match self {
            Phase::Validate(task) | Phase::HandOver(task) | Phase::ReloadHandOver(task) => Some(task),
            Phase::Release(task) | Phase::ReloadRelease(task) => Some(task),
            _ => None,
        }
    }

    /// From a successful announcement until the own response is found.
    pub fn is_loop(self) -> bool {
        match self {
            Phase::Poll | Phase::LoadHead | Phase::LinkHead => true,
            other => other.is_after_link(),
        }
    }

    /// The loop phases after the head was linked.
    pub fn is_after_link(self) -> bool {
        match self {
            Phase::LoadPriority | Phase::LoadOwn | Phase::ClearHead | Phase::ReloadClear => true,
            other => other.named_task().is_some(),
        }
    }

    /// From the own response's finding until the head has dropped it.
    pub fn is_exit(self) -> bool {
        matches!(
            self,
            Phase::LoadExit | Phase::LinkExit | Phase::ClearExit | Phase::ReleaseExit
        )
    }

    /// Apply and its reload keep the number of the operation to be applied.
    pub fn keeps_operation(self) -> bool {
        matches!(self, Phase::Apply(_) | Phase::ReloadApply(_))
    }
}

#[cfg(test)]
mod tests {
    use super::*;

    #[test]
    fn numbers_and_phases_belong_to_each_other() {
        for number in 0..=u8::MAX {
            let known = number <= 14 || (16..=87).contains(&number);
            assert_eq!(Phase::of_number(number).is_some(), known);
            if let Some(phase) = Phase::of_number(number) {
                assert_eq!(phase.number(), number);
            }
        }
    }

    #[test]
    fn ranges_stand_where_the_phase_table_has_them() {
        assert_eq!(Phase::Retract.number(), 12);
        assert_eq!(Phase::ReloadClear.number(), 14);
        assert_eq!(Phase::Apply(0).number(), 16);
        assert_eq!(Phase::LoadHelped(0).number(), 32);
        assert_eq!(Phase::Validate(3).number(), 51);
        assert_eq!(Phase::ReloadRelease(7).number(), 87);
    }

    #[test]
    fn named_tasks_are_those_of_the_ranges() {
        assert_eq!(Phase::Apply(5).named_task(), Some(5));
        assert_eq!(Phase::LinkHelped(2).named_task(), Some(2));
        assert_eq!(Phase::LinkHelped(2).marked_announcement(), None);
        assert_eq!(Phase::Release(2).marked_announcement(), Some(2));
        assert_eq!(Phase::ClearHead.named_task(), None);
    }
}
