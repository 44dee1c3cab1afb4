//! The ceiling of own steps of one operation.

use crate::cells::MOST_TASKS;
use crate::refusal::Refusal;

const CEILINGS: [u32; MOST_TASKS] = [1_000, 8_000, 27_000, 64_000, 125_000, 216_000, 343_000, 512_000];

/// The ceiling for a number of tasks from 1 to 8.
pub fn ceiling(tasks: usize) -> Result<u32, Refusal> {
    if (1..=MOST_TASKS).contains(&tasks) {
        Ok(CEILINGS[tasks - 1])
    } else {
        Err(Refusal::Row)
    }
}

#[cfg(test)]
mod tests {
    use super::*;

    #[test]
    fn ceiling_of_three_is_27000() {
        assert_eq!(ceiling(3), Ok(27_000));
    }

    #[test]
    fn ceilings_are_the_product() {
        for tasks in 1..=8 {
            assert_eq!(ceiling(tasks), Ok(1_000 * (tasks as u32).pow(3)));
        }
    }

    #[test]
    fn other_numbers_of_tasks_are_refused() {
        for tasks in [0, 9, 256] {
            assert_eq!(ceiling(tasks), Err(Refusal::Row));
        }
    }
}
