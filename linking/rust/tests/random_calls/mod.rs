//! The calls of random runs.

use drive_object::Progress;
use reference::random::Random;

use crate::both::Lent;

/// One call of a random run, for a task below the number of tasks or one past it: a begin if it is idle, mostly, else a
/// step, which gives its progress if it is accepted.
pub fn random_call(lent: &mut Lent, operations: usize, random: &mut Random) -> Option<Progress> {
    let task = random.below(lent.row.len() + 1);
    let idle = lent.row.get(task).is_none_or(|record| record.phase == 0);
    if idle && random.below(8) > 0 {
        lent.begin(task, random.below(operations + 1));
        return None;
    }
    lent.step(task).ok()
}
