//! Schedules around one task, the victim, with all calls left out that no longest operation needs.
//!
//! A call of another task is *forced* if what it does is settled and no cell changes: a swap whose word is gone, a
//! read whose result cannot change the way on, the begin of the next operation. A forced call can be made at once
//! without taking anything from the schedules that remain, and so can a swap of the victim that must fail: to fail
//! later is to fail now, and to succeed because the old word has come back is to have read it later. So it is enough to
//! try the other calls at points where no call is forced.

use crate::configuration::{Call, Configuration};
use crate::machine::Answer;
use crate::phase::Phase;
use crate::potential::is_stale;
use crate::rules::Rules;
use crate::table::Table;

/// The one operation that every task makes.
#[derive(Clone, Copy)]
pub struct Chase<'a> {
    pub table: &'a Table<'a>,
    pub operation: usize,
    pub victim: usize,
}

impl<'a> Chase<'a> {
    /// A chase over the object that stands still. Task 0 is as good a victim as any: the start looks the same to all.
    pub fn of_still(table: &'a Table<'a>) -> Chase<'a> {
        Chase {
            table,
            operation: 0,
            victim: 0,
        }
    }

    /// The call that a task can make: the begin of the operation if it is idle, else a step.
    pub fn call_of(&self, point: &Configuration, task: usize) -> Call {
        match point.record(task).is_pending() {
            true => Call::Step { task },
            false => Call::Begin {
                task,
                operation: self.operation,
            },
        }
    }

    /// Makes the call of a task and then all forced calls; gives back the victim's own steps among them.
    pub fn go_on(&self, point: &mut Configuration, task: usize, made: &mut Vec<u8>) -> u32 {
        let own_steps = self.make(point, task, made);
        own_steps + self.settle(point, made)
    }

    /// Makes forced calls until there is none.
    pub fn settle(&self, point: &mut Configuration, made: &mut Vec<u8>) -> u32 {
        let mut own_steps = 0;
        for task in 0..point.tasks {
            while self.is_forced(point, task) {
                own_steps += self.make(point, task, made);
            }
        }
        own_steps
    }

    fn make(&self, point: &mut Configuration, task: usize, made: &mut Vec<u8>) -> u32 {
        made.push(task as u8);
        let call = self.call_of(point, task);
        let answer = point.make(Rules::MACHINE, self.table, call);
        match answer {
            Ok(Some(Answer::Running | Answer::Ended { .. })) => u32::from(task == self.victim),
            Ok(None) => 0,
            Err(refusal) => panic!("refusal {} of {call:?}", refusal.number()),
        }
    }

    /// The next call of the task changes no cell, and to make it later is no other schedule.
    pub fn is_forced(&self, point: &Configuration, task: usize) -> bool {
        let other = task != self.victim;
        let phase = point.record(task).known_phase();
        let lost_head = !point.is_linked_to_head(task);
        match phase {
            Phase::Idle => other,
            Phase::ReadOnly | Phase::Announce | Phase::LoadHead | Phase::Retract => false,
            Phase::LoadHelped(_) => false,
            Phase::Poll => point.is_cleared(task),
            Phase::LoadPriority => other && lost_head,
            Phase::LoadOwn | Phase::LoadExit | Phase::Validate(_) => other,
            Phase::ReloadApply(_) | Phase::ReloadClear => other || lost_head,
            Phase::ReloadHandOver(helped) | Phase::ReloadRelease(helped) => {
                other || !point.is_linked_to(task, helped)
            }
            _ => is_stale(point, task, phase),
        }
    }

    /// A number for a settled point; the saved words of others follow from the cells and are left out.
    pub fn hash(&self, point: &Configuration) -> u64 {
        let mix = |sum: u64, word: u64| (sum.rotate_left(5) ^ word).wrapping_mul(0x517c_c1b7_2722_0a95);
        let cells = point.cells().iter().copied().fold(0, mix);
        let places = point
            .row()
            .iter()
            .map(|record| u64::from(record.phase) | u64::from(record.priority) << 8);
        let victim = point.record(self.victim);
        let sum = mix(mix(places.fold(cells, mix), victim.head), victim.announcement);
        sum ^ (sum >> 32)
    }
}
