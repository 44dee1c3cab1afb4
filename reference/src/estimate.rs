//! A guess of how many own steps the victim's operation can still be made to take.
//!
//! A cycle of the head is an apply, a hand-over and a clear. In each cycle every other task can once link the free
//! head, once the held one, and twice change the holder's announcement. A victim that is about to link loses a round
//! by each change of the cell in question: three steps at the head, five at the announcement.

use crate::configuration::Configuration;
use crate::phase::Phase;

/// What a change of the head and one of the helped announcement cost the victim.
#[derive(Clone, Copy)]
struct Price {
    link: i32,
    announcement: i32,
}

/// While the victim is about to link, a change costs it a round.
const ROUNDS: Price = Price {
    link: 3,
    announcement: 5,
};
/// The victim's own part of a cycle: while the head is free, and while it is held.
const OWN_FREE: i32 = 7;
const OWN_HELD: i32 = 9;
/// What comes after the response.
const AFTER_RESPONSE: i32 = 16;

/// The guess for a settled point at which the victim's operation is pending.
pub fn estimate(point: &Configuration, victim: usize) -> i32 {
    let holder = point.holder().map(|holder| holder.task);
    match holder {
        _ if point.is_cleared(victim) => cleared(point, victim),
        None => free(point, victim) + cycles(point, victim) + held_by_victim(point),
        Some(task) if task == victim => victim_holds(point, victim),
        Some(task) => {
            held(point, victim, task) + full_free(point) + cycles(point, victim) + held_by_victim(point)
        }
    }
}

fn others(point: &Configuration, victim: usize) -> impl Iterator<Item = usize> {
    (0..point.tasks).filter(move |&task| task != victim)
}

fn count_others(point: &Configuration) -> i32 {
    point.tasks as i32 - 1
}

/// The part of a whole cycle in which the head has no holder.
fn full_free(point: &Configuration) -> i32 {
    ROUNDS.link * count_others(point) + OWN_FREE
}

/// The part of a whole cycle in which the head holds another task's operation.
fn full_held(point: &Configuration) -> i32 {
    (ROUNDS.link + 2 * ROUNDS.announcement) * count_others(point) + OWN_HELD
}

/// The last cycle, in which the head holds the victim's operation.
fn held_by_victim(point: &Configuration) -> i32 {
    (ROUNDS.link + ROUNDS.announcement) * count_others(point) + OWN_HELD + after_response(point)
}

/// What is left when the response is handed over while the victim is about to read the head.
fn after_response(point: &Configuration) -> i32 {
    AFTER_RESPONSE + 4 * count_others(point)
}

/// The cycles in which somebody else can still be applied before the victim.
fn cycles(point: &Configuration, victim: usize) -> i32 {
    distance(point, victim) as i32 * (full_free(point) + full_held(point))
}

/// How often somebody else can still be applied before the victim. Of several tasks that pass it by, one succeeds.
pub fn distance(point: &Configuration, victim: usize) -> usize {
    let tasks = point.tasks;
    let passes_by = |task: usize| {
        let record = point.record(task);
        let applies_other = matches!(record.known_phase(), Phase::Apply(other) if other != victim);
        usize::from(record.priority) == victim && applies_other
    };
    let by_priorities: usize = (0..tasks)
        .map(|task| (tasks + victim - usize::from(point.record(task).priority)) % tasks)
        .sum();
    by_priorities + if (0..tasks).any(passes_by) { tasks } else { 0 }
}

/// The head has no holder.
fn free(point: &Configuration, victim: usize) -> i32 {
    let link = match victim_is_linked(point, victim) {
        true => 2,
        false => ROUNDS.link,
    };
    let links: i32 = others(point, victim).map(|task| links_of_free(point, task)).sum();
    let own = match point.record(victim).known_phase() {
        Phase::LoadPriority | Phase::LoadOwn if !point.is_linked_to_head(victim) => OWN_FREE,
        Phase::LoadPriority => 4,
        Phase::LoadOwn => 3,
        Phase::Apply(_) => 2,
        Phase::ReloadApply(_) => 3,
        _ => OWN_FREE,
    };
    link * links + own - spent(point, victim) + lost(point, victim)
}

/// How often a task can still change a head without a holder, short of applying.
fn links_of_free(point: &Configuration, task: usize) -> i32 {
    let cleared = point.is_cleared(task);
    match point.record(task).known_phase() {
        Phase::Apply(_) => 0,
        Phase::LoadPriority if cleared => 2,
        Phase::LoadPriority => 0,
        Phase::ReleaseExit => 2,
        Phase::LoadHead | Phase::LinkHead if cleared => 3,
        _ => 1,
    }
}

/// The head holds another task's operation.
fn held(point: &Configuration, victim: usize, holder: usize) -> i32 {
    let phase = point.record(victim).known_phase();
    let price = held_price(point, victim, phase);
    let mut handing_over = 0;
    let mut sum = 0;
    for task in others(point, victim) {
        let (links, changes) = changes_of_held(point, task, holder);
        handing_over += i32::from(matches!(point.record(task).known_phase(), Phase::HandOver(_)));
        sum += links * price.link + changes * price.announcement;
    }
    sum += handing_over.min(1) * price.announcement;
    let linked = point.is_linked_to_head(victim);
    let own = match phase {
        Phase::Validate(_) | Phase::ReloadHandOver(_) | Phase::ReloadRelease(_) if linked => 5,
        Phase::HandOver(_) | Phase::Release(_) if linked => 4,
        Phase::ReloadClear if linked => 3,
        Phase::ClearHead if linked => 2,
        _ => OWN_HELD,
    };
    sum + own - spent(point, victim) + lost(point, victim)
}

/// A victim that has linked repeats only its swap and a read.
fn held_price(point: &Configuration, victim: usize, phase: Phase) -> Price {
    let linked = point.is_linked_to_head(victim);
    match phase {
        _ if !linked => ROUNDS,
        Phase::ClearHead | Phase::ReloadClear => Price {
            link: 2,
            announcement: 0,
        },
        _ if phase.marked_announcement().is_some() => Price {
            link: 1,
            announcement: 2,
        },
        _ => ROUNDS,
    }
}

/// How often a task can still change a held head, and the announcement of its holder, short of handing over and
/// clearing.
fn changes_of_held(point: &Configuration, task: usize, holder: usize) -> (i32, i32) {
    let linked = point.is_linked_to_head(task);
    match point.record(task).known_phase() {
        Phase::LoadHelped(helped) | Phase::LinkHelped(helped) => match (linked, helped == holder) {
            (true, _) => (0, 2),
            (false, true) => (1, 4),
            (false, false) => (1, 2),
        },
        Phase::Release(helped) => match (linked, helped == holder) {
            (true, _) => (0, 1),
            (false, true) => (1, 3),
            (false, false) => (1, 2),
        },
        Phase::HandOver(_) | Phase::ClearHead | Phase::ClearExit => (0, 0),
        Phase::LinkExit => (1, 0),
        Phase::ReleaseExit => (2, 2),
        _ if linked => (0, 2),
        _ => (1, 2),
    }
}

/// The head holds the victim's operation, and the response is not handed over.
fn victim_holds(point: &Configuration, victim: usize) -> i32 {
    let phase = point.record(victim).known_phase();
    let price = held_price(point, victim, phase);
    let mut sum = 0;
    for task in others(point, victim) {
        let (links, changes) = changes_of_held(point, task, victim);
        sum += links * price.link + (changes - 1).max(0) * price.announcement;
    }
    let linked = point.is_linked_to_head(victim);
    let own = match phase {
        _ if linked && phase.marked_announcement().is_some() => 0,
        _ => OWN_HELD,
    };
    sum + own - spent(point, victim) + lost(point, victim) + after_response(point)
}

/// The victim has its response.
fn cleared(point: &Configuration, victim: usize) -> i32 {
    let unlinked = others(point, victim)
        .filter(|&task| !point.is_linked_to_head(task))
        .count() as i32;
    let phase = point.record(victim).known_phase();
    let linked = point.is_linked_to_head(victim);
    match phase {
        Phase::LoadHead | Phase::LinkHead => after_response(point) - i32::from(phase == Phase::LinkHead),
        Phase::Retract => 1,
        _ if phase.is_exit() => {
            let held = point.is_holder(victim);
            4 + if held { 2 * unlinked } else { 0 } - i32::from(phase != Phase::LoadExit)
        }
        _ if !linked => 4 + lost(point, victim),
        Phase::ClearHead | Phase::ReloadClear => 5 + 2 * unlinked,
        _ => {
            let helped = phase.named_task().unwrap_or(victim);
            let changes: i32 = others(point, victim)
                .map(|task| changes_of_held(point, task, helped))
                .map(|(links, changes)| 2 * links + 2 * changes)
                .sum();
            14 + changes / 2 - pending_place(phase)
        }
    }
}

/// The victim has linked the head and its mark stands.
fn victim_is_linked(point: &Configuration, victim: usize) -> bool {
    point.is_linked_to_head(victim) && point.record(victim).known_phase().is_after_link()
}

/// Steps of the present round that are made already.
fn spent(point: &Configuration, victim: usize) -> i32 {
    let linked = point.is_linked_to_head(victim);
    match point.record(victim).known_phase() {
        Phase::LoadHead => 1,
        Phase::LinkHead => 2,
        Phase::LoadHelped(_) if linked => 3,
        Phase::LinkHelped(_) if linked => 4,
        _ => 0,
    }
}

/// Steps of a cleared victim since it linked the head.
fn pending_place(phase: Phase) -> i32 {
    match phase {
        Phase::LinkHelped(_) => 1,
        Phase::Validate(_) => 2,
        Phase::HandOver(_) | Phase::Release(_) => 4,
        _ => 3,
    }
}

/// Steps that a victim makes in vain after it has lost its mark on the head.
fn lost(point: &Configuration, victim: usize) -> i32 {
    let phase = point.record(victim).known_phase();
    if point.is_linked_to_head(victim) || !phase.is_after_link() {
        return 0;
    }
    match phase {
        Phase::LoadPriority => 4,
        Phase::LoadOwn => 3,
        Phase::LoadHelped(_) => 7,
        Phase::LinkHelped(_) => 6,
        Phase::Validate(_) | Phase::ReloadRelease(_) => 5,
        Phase::Release(_) => 4,
        _ => 2,
    }
}

#[cfg(test)]
mod tests {
    use super::*;
    use crate::objects::still;
    use crate::opening::Opening;
    use crate::reduced::Chase;

    #[test]
    fn a_cycle_is_guessed_at_sixteen_steps_for_each_task() {
        let table = still();
        for tasks in 2..=8 {
            let point = Opening::new(&Chase::of_still(&table), tasks).point;
            let distance = (tasks * (tasks - 1) + 1) as i32;
            assert_eq!(cycles(&point, 0), distance * 16 * tasks as i32);
        }
    }

    #[test]
    fn the_last_step_is_guessed_at_one() {
        let table = still();
        let chase = Chase::of_still(&table);
        let mut point = Opening::new(&chase, 1).point;
        while point.record(0).known_phase() != Phase::Retract {
            chase.go_on(&mut point, 0, &mut Vec::new());
        }
        assert_eq!(estimate(&point, 0), 1);
    }
}
