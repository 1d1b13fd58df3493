//! A lowest rate takes at most so many times as long as the whole job.
mod common;

use common::lowest_speed::timings;
use common::random::Random;

const MOST_TIMES: f64 = 15.0;

#[test]
fn lowest_rate_is_fast_enough() {
    for timing in timings(&mut Random::fresh("lowest speed")) {
        println!("speed: {timing}");
        assert!(timing.ratio() <= MOST_TIMES, "more than {MOST_TIMES} times a whole job: {timing}");
    }
}
