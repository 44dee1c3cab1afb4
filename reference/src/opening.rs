//! The calls before the victim's operation: they set the priorities, the helpers and one task that passes the victim by.

use crate::configuration::Configuration;
use crate::phase::Phase;
use crate::reduced::Chase;
use crate::rules::Rules;

/// A point of a run with the calls that lead to it.
#[derive(Clone)]
pub struct Opening {
    pub point: Configuration,
    pub calls: Vec<u8>,
}

impl Opening {
    /// Every priority is the task after the victim, so that it comes round to the victim last; the task before the
    /// victim is about to apply its own operation, since it looked at the victim's announcement while that was empty;
    /// all others are about to help that task, with a head that they linked when it held an earlier operation.
    pub fn new(chase: &Chase, tasks: usize) -> Opening {
        let mut opening = Opening {
            point: Configuration::started(chase.table, tasks).expect("the object is valid"),
            calls: Vec::new(),
        };
        let victim = chase.victim;
        let passing = (victim + tasks - 1) % tasks;
        for task in (0..tasks).filter(|&task| task != passing) {
            opening.set_priority(chase, task, (victim + 1) % tasks);
        }
        if passing != victim {
            opening.run_until(chase, passing, |point| point.is_holder(passing));
            for task in (0..tasks).filter(|&task| task != passing && task != victim) {
                opening.run_to_phase(chase, task, Phase::LoadHelped(passing));
            }
            opening.run_to_phase(chase, passing, Phase::Idle);
            opening.run_to_phase(chase, passing, Phase::Apply(passing));
        }
        opening.call(chase, victim);
        chase.settle(&mut opening.point, &mut opening.calls);
        opening
    }

    /// Lets a task end operations until it has a priority.
    fn set_priority(&mut self, chase: &Chase, task: usize, priority: usize) {
        self.run_until(chase, task, |point| {
            let record = point.record(task);
            usize::from(record.priority) == priority && !record.is_pending()
        });
    }

    fn run_to_phase(&mut self, chase: &Chase, task: usize, phase: Phase) {
        self.run_until(chase, task, |point| point.record(task).known_phase() == phase);
    }

    fn run_until(&mut self, chase: &Chase, task: usize, reached: impl Fn(&Configuration) -> bool) {
        while !reached(&self.point) {
            self.call(chase, task);
        }
    }

    fn call(&mut self, chase: &Chase, task: usize) {
        self.calls.push(task as u8);
        let call = chase.call_of(&self.point, task);
        self.point
            .make(Rules::MACHINE, chase.table, call)
            .expect("calls of a chase are accepted");
    }
}

#[cfg(test)]
mod tests {
    use super::*;
    use crate::objects::still;

    #[test]
    fn all_priorities_but_one_are_the_task_after_the_victim() {
        let table = still();
        let chase = Chase::of_still(&table);
        for tasks in 2..=8 {
            let point = Opening::new(&chase, tasks).point;
            let priorities: Vec<u8> = point.row().iter().map(|record| record.priority).collect();
            let mut expected = vec![1; tasks];
            expected[tasks - 1] = 0;
            assert_eq!(priorities, expected);
            assert_eq!(point.record(0).known_phase(), Phase::Announce);
            assert_eq!(point.record(tasks - 1).known_phase(), Phase::Apply(tasks - 1));
        }
    }
}
