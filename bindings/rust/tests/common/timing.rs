//! How a time is taken.
use std::time::{Duration, Instant};

pub fn timed(round: &mut impl FnMut()) -> Duration {
    let start = Instant::now();
    round();
    start.elapsed()
}

/// The best time of several rounds.
pub fn best(rounds: usize, mut round: impl FnMut()) -> Duration {
    (0..rounds).map(|_| timed(&mut round)).min().expect("there are rounds")
}

/// The best time of each of two, their rounds in turn, so that what else the machine does falls on both.
pub fn best_of_each(rounds: usize, mut one: impl FnMut(), mut other: impl FnMut()) -> (Duration, Duration) {
    let times = (0..rounds).map(|_| (timed(&mut one), timed(&mut other)));
    times.reduce(|best, time| (best.0.min(time.0), best.1.min(time.1))).expect("there are rounds")
}
