//! The damage that the other tests do to books, by itself: it stays within the book, however often it is done.
mod common;

use common::books::{any_book, damage};
use common::random::Random;

const SEEDS: u64 = 1_000;
const BOOKS: usize = 200;

#[test]
fn damage_stays_within_the_book() {
    let mut seeds = Random::fresh("damage");
    for _ in 0..SEEDS {
        let mut random = Random::from_seed(seeds.next());
        for _ in 0..BOOKS {
            let mut book = any_book(&mut random);
            for _ in 0..random.within(0, 3) {
                damage(&mut random, &mut book);
            }
        }
    }
}
