//! The potential of a pending changing operation: a number that each own step lowers and no other step raises.

use crate::cells::{Announcement, Head};
use crate::configuration::Configuration;
use crate::phase::Phase;

/// What a change by another task may cost, in own steps: of the head, of an announcement, and the loss of the mark.
const HEAD_CHANGE: u32 = 3;
const ANNOUNCEMENT_CHANGE: u32 = 5;
const LOST: u32 = 13;

/// What a task that links a held head can do to the announcement of its holder: mark and unmark it.
const HELP: u32 = 2 * ANNOUNCEMENT_CHANGE;

const HIGHEST_RANK: u32 = 39;
const RESPONSE_RISE: u32 = 26;

/// The potential of an operation at its begin: the bound that is proved.
pub fn at_begin(tasks: usize) -> u32 {
    let n = tasks as u32;
    n * n * cycle_price(n) + HIGHEST_RANK * n + cleared_bound(n)
}

/// What an apply may cost: the ranks of the others may rise, the word go stale, the mark in the head be lost.
fn apply_price(n: u32) -> u32 {
    (HEAD_CHANGE + HELP) * (n - 1) + HEAD_CHANGE + LOST
}

/// What a hand-over to another task may cost.
const HAND_OVER_PRICE: u32 = RESPONSE_RISE + ANNOUNCEMENT_CHANGE;

/// What a clear may cost; a free head gives no help to come.
fn clear_price(n: u32) -> u32 {
    HEAD_CHANGE * (n - 1) + HEAD_CHANGE + LOST
}

fn cycle_price(n: u32) -> u32 {
    apply_price(n) + HAND_OVER_PRICE + clear_price(n)
}

fn cleared_bound(n: u32) -> u32 {
    59 * n + 32
}

/// The potential of a task with a changing operation pending.
pub fn potential(point: &Configuration, task: usize) -> u32 {
    let phase = point.record(task).known_phase();
    if phase == Phase::Announce {
        at_begin(point.tasks)
    } else if point.is_cleared(task) {
        cleared_potential(point, task, phase)
    } else {
        waiting_potential(point, task, phase)
    }
}

fn waiting_potential(point: &Configuration, task: usize, phase: Phase) -> u32 {
    let n = point.tasks as u32;
    stages_to_wait_for(point, task)
        + ranks_of_others(point, task)
        + position(phase, false)
        + stale_price(point, task, phase)
        + LOST * u32::from(phase.is_after_link() && !point.is_linked_to_head(task))
        + cleared_bound(n)
}

fn cleared_potential(point: &Configuration, task: usize, phase: Phase) -> u32 {
    let stale = match phase {
        Phase::LinkHead | Phase::LinkHelped(_) => 0,
        _ => stale_price(point, task, phase),
    };
    let head = head_changes(point, task, phase);
    let announcement = ANNOUNCEMENT_CHANGE * announcement_changes(point, task, phase);
    position(phase, true) + stale + head + announcement
}

/// Where the cycle of the head stands.
#[derive(Clone, Copy, PartialEq, Eq)]
enum Stage {
    NoHolder,
    HolderWaits,
    HolderCleared,
}

fn stage(point: &Configuration) -> Stage {
    match point.holder() {
        None => Stage::NoHolder,
        Some(holder) if point.is_cleared(holder.task) => Stage::HolderCleared,
        Some(_) => Stage::HolderWaits,
    }
}

/// The price of the stage changes that the task may still have to wait for.
fn stages_to_wait_for(point: &Configuration, task: usize) -> u32 {
    if point.is_holder(task) {
        return 0;
    }
    let n = point.tasks as u32;
    let cycles: u32 = (0..point.tasks).map(|other| distance(point, other, task)).sum();
    let left_in_cycle = match stage(point) {
        Stage::NoHolder => apply_price(n),
        Stage::HolderCleared => clear_price(n) + apply_price(n),
        Stage::HolderWaits => HAND_OVER_PRICE + clear_price(n) + apply_price(n),
    };
    cycles * cycle_price(n) + left_in_cycle
}

/// How often `other` can still apply somebody else before it applies `task`.
fn distance(point: &Configuration, other: usize, task: usize) -> u32 {
    let n = point.tasks;
    let record = point.record(other);
    let priority = usize::from(record.priority);
    let passes_by = match record.known_phase() {
        Phase::LoadOwn => true,
        Phase::Apply(applied) | Phase::ReloadApply(applied) => applied != task,
        _ => false,
    };
    match priority == task && passes_by {
        true => n as u32,
        false => ((n + task - priority) % n) as u32,
    }
}

/// The word that the task's next swap compares with is not in the cell any more.
pub fn is_stale(point: &Configuration, task: usize, phase: Phase) -> bool {
    let record = point.record(task);
    match phase {
        Phase::LinkHead
        | Phase::LoadPriority
        | Phase::LoadOwn
        | Phase::Apply(_)
        | Phase::ClearHead
        | Phase::LinkExit
        | Phase::ClearExit
        | Phase::ReleaseExit => point.head() != record.head,
        Phase::LinkHelped(other)
        | Phase::Validate(other)
        | Phase::HandOver(other)
        | Phase::Release(other) => point.announcement(other) != record.announcement,
        _ => false,
    }
}

/// What it may cost that the word is not in the cell any more.
fn stale_price(point: &Configuration, task: usize, phase: Phase) -> u32 {
    let change = match phase {
        Phase::LinkHelped(_) | Phase::Validate(_) | Phase::HandOver(_) | Phase::Release(_) => {
            ANNOUNCEMENT_CHANGE
        }
        _ => HEAD_CHANGE,
    };
    change * u32::from(is_stale(point, task, phase))
}

fn ranks_of_others(point: &Configuration, task: usize) -> u32 {
    others(point, task).map(|other| rank(point, other)).sum()
}

fn others(point: &Configuration, task: usize) -> impl Iterator<Item = usize> {
    (0..point.tasks).filter(move |&other| other != task)
}

/// What the changes of cells by a task before the next stage change may still cost another.
fn rank(point: &Configuration, task: usize) -> u32 {
    let cleared = point.is_cleared(task);
    let linked = point.is_linked_to_head(task);
    let phase = point.record(task).known_phase();
    let helping = match stage(point) {
        Stage::NoHolder => 0,
        Stage::HolderWaits | Stage::HolderCleared => HELP,
    };
    let announcing = ANNOUNCEMENT_CHANGE + HEAD_CHANGE + helping;
    let retracting = ANNOUNCEMENT_CHANGE + announcing;
    let base = match phase {
        Phase::Idle | Phase::ReadOnly | Phase::Announce => return announcing,
        Phase::Retract => return retracting,
        Phase::Poll if cleared => 0,
        Phase::LoadHead | Phase::LinkHead if cleared => HELP,
        Phase::Poll | Phase::LoadHead | Phase::LinkHead => helping,
        Phase::LoadHelped(_) | Phase::LinkHelped(_) => HELP,
        Phase::Validate(_) | Phase::Release(_) | Phase::ReloadRelease(_) => ANNOUNCEMENT_CHANGE,
        _ => 0,
    };
    let extra = match (cleared, linked) {
        (true, true) => HEAD_CHANGE + retracting,
        (true, false) => 2 * HEAD_CHANGE + retracting,
        (false, true) => 0,
        (false, false) if phase.is_after_link() => HEAD_CHANGE + helping,
        (false, false) => HEAD_CHANGE,
    };
    base + extra
}

/// How far the phase is from the end, when nothing interferes.
fn position(phase: Phase, cleared: bool) -> u32 {
    match phase {
        Phase::Idle | Phase::ReadOnly | Phase::Announce => 0,
        Phase::Retract => 1,
        Phase::ClearExit | Phase::ReleaseExit => 2,
        Phase::LinkExit => 3,
        Phase::LoadExit => 4,
        Phase::Poll if cleared => 5,
        Phase::Poll => 19,
        Phase::ClearHead | Phase::Apply(_) => 6,
        Phase::ReloadClear | Phase::ReloadApply(_) => 7,
        Phase::LoadOwn => 8,
        Phase::LoadPriority => 9,
        Phase::Release(_) | Phase::HandOver(_) => 12,
        Phase::ReloadRelease(_) | Phase::ReloadHandOver(_) => 13,
        Phase::Validate(_) => 14,
        Phase::LinkHelped(_) => 15,
        Phase::LoadHelped(_) => 16,
        Phase::LinkHead => 17,
        Phase::LoadHead => 18,
    }
}

/// What the changes of the head by others may still cost while a cleared task has to do with it.
fn head_changes(point: &Configuration, task: usize, phase: Phase) -> u32 {
    let n = point.tasks as u32;
    let concerned = point.is_linked_to_head(task) || point.is_holder(task);
    let now = match concerned {
        true => {
            let hand_over = RESPONSE_RISE * u32::from(stage(point) == Stage::HolderWaits);
            HEAD_CHANGE + ranks_of_others(point, task) + hand_over
        }
        false => 0,
    };
    let to_come = match phase {
        Phase::LoadHead | Phase::LinkHead => HIGHEST_RANK * n,
        _ => 0,
    };
    now + to_come
}

/// How often others can still change the announcement that a cleared task helps.
fn announcement_changes(point: &Configuration, task: usize, phase: Phase) -> u32 {
    let n = point.tasks as u32;
    match phase {
        Phase::LoadHead | Phase::LinkHead | Phase::LoadHelped(_) | Phase::LinkHelped(_) => 4 * n + 1,
        _ => match phase.marked_announcement() {
            Some(helped) if point.is_linked_to(task, helped) => {
                1 + others(point, task)
                    .map(|other| changes_by(point, other, helped))
                    .sum::<u32>()
            }
            _ => 0,
        },
    }
}

/// How often `other` can still change the announcement of `helped` while a helper's mark stands there.
fn changes_by(point: &Configuration, other: usize, helped: usize) -> u32 {
    let record = point.record(other);
    let phase = record.known_phase();
    let arriving = phase == Phase::LoadHelped(helped) || phase == Phase::LinkHelped(helped);
    let here = match (arriving, point.is_linked_to(other, helped)) {
        (true, _) => 2,
        (false, true) => 1,
        (false, false) => 0,
    };
    let held = point.is_holder(helped);
    let announced = matches!(point.content(helped), Announcement::Operation(_));
    let serves = held && point.is_linked_to_head(other) && works_for(phase, record.head, helped);
    here + if (announced || held) && !serves { 2 } else { 0 }
}

/// The phase helps the task, or clears the head of its response.
fn works_for(phase: Phase, saved_head: u64, helped: usize) -> bool {
    match phase {
        Phase::ClearHead | Phase::ReloadClear => Head::decode(saved_head).is_held_by(helped),
        Phase::Apply(_) | Phase::ReloadApply(_) => false,
        other => other.named_task() == Some(helped),
    }
}

#[cfg(test)]
mod tests {
    use super::*;
    use crate::ceiling::ceiling;

    #[test]
    fn the_bounds_at_begin_are_those_of_the_design() {
        assert_eq!(at_begin(1), 193);
        assert_eq!(at_begin(2), 544);
        assert_eq!(at_begin(8), 12_016);
    }

    #[test]
    fn the_bounds_at_begin_are_below_the_ceilings() {
        for tasks in 1..=8 {
            assert!(at_begin(tasks) < ceiling(tasks).unwrap());
        }
    }
}
