//! A small random generator (xorshift*), so that a seed repeats a run.
use std::time::{SystemTime, UNIX_EPOCH};

pub struct Random(u64);

impl Random {
    pub fn from_seed(seed: u64) -> Random {
        Random(seed | 1)
    }

    /// A fresh seed, or the one that JELMORAND_SEED gives; printed, so that a failure can be repeated.
    pub fn fresh(what: &str) -> Random {
        let clock = || SystemTime::now().duration_since(UNIX_EPOCH).expect("the clock is past 1970").as_nanos() as u64;
        let seed = match std::env::var("JELMORAND_SEED") {
            Ok(given) => given.parse().expect("JELMORAND_SEED is a whole number"),
            Err(_) => clock(),
        };
        println!("{what}: repeat with JELMORAND_SEED={seed}");
        Random::from_seed(seed)
    }

    pub fn next(&mut self) -> u64 {
        self.0 ^= self.0 >> 12;
        self.0 ^= self.0 << 25;
        self.0 ^= self.0 >> 27;
        self.0.wrapping_mul(0x2545_F491_4F6C_DD1D)
    }

    /// A number from low to high, both included.
    pub fn within(&mut self, low: u64, high: u64) -> u64 {
        low + self.next() % (high - low + 1)
    }

    pub fn one_in(&mut self, many: u64) -> bool {
        self.within(1, many) == 1
    }

    /// A number from 1 to high, each order of magnitude about as often.
    pub fn of_any_size(&mut self, high: u64) -> u64 {
        let bits = self.within(1, 64 - u64::from(high.leading_zeros()));
        (self.next() >> (64 - bits)).clamp(1, high)
    }
}
