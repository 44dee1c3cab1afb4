//! Time: the best of many short runs, in which the loads that are compared take turns.

use std::time::{Duration, Instant};

use crate::load::Load;
use crate::measured::run;

const RUNS: usize = 15;
const SHORTEST: Duration = Duration::from_millis(10);

/// Steps, begins or operations in a second, for each load.
pub fn per_second<const N: usize>(loads: &[Load; N]) -> [f64; N] {
    let loads = loads.map(long_enough);
    let mut best = [0.0; N];
    for _ in 0..RUNS {
        for (best, load) in best.iter_mut().zip(&loads) {
            *best = rate(load).0.max(*best);
        }
    }
    best
}

fn long_enough(mut load: Load) -> Load {
    while rate(&load).1 < SHORTEST {
        load.count *= 2;
    }
    load
}

fn rate(load: &Load) -> (f64, Duration) {
    let before = Instant::now();
    let made = run(load);
    let spent = before.elapsed();
    (made as f64 / spent.as_secs_f64(), spent)
}
