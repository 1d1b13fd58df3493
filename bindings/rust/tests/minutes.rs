//! The factors after periods against the plain rewrite, on random periods and books: the answer and every place of the lent list;
//! and at one rate, minute after minute, against what R-5 of document 02 promises.
mod common;

use common::books::{any_book, any_rate, good_book};
use common::periods::{any_periods, in_turn, periods_of};
use common::plain::GRAINS;
use common::plain_minutes::{self, steady_at_most};
use common::random::Random;
use jelmorand::{Refusal, MAX_MEMBERS, MAX_MINUTES, MAX_PERIODS};
use std::collections::BTreeSet;

const CALLS: usize = 12_000;
const ROOMS: usize = 150;
const SPLITS: usize = 2_000;

#[test]
fn factors_after_periods_agree_with_the_rewrite() {
    let mut random = Random::fresh("minutes");
    let mut accepted = 0;
    let mut refused = [0; 23];
    for call in 0..CALLS {
        let (periods, book) = (any_periods(&mut random), any_book(&mut random));
        let room = if random.one_in(3) { random.within(0, 20) } else { random.within(16, 40) };
        let before: Vec<u64> = (0..room).map(|_| random.next()).collect();
        let mut expected_list = before.clone();
        let mut list = before.clone();
        let expected = plain_minutes::factors_after(&in_turn(&periods), &book, &mut expected_list);
        let answer = jelmorand::factors_after(&periods, &book, &mut list).map_err(|refusal| refusal.number());
        assert_eq!(answer, expected, "call {call}: periods {periods:?}, room {room}, book {book:?}");
        assert_eq!(list, expected_list, "call {call}: periods {periods:?}, room {room}, book {book:?}");
        match answer {
            Ok(n) => {
                assert_eq!(list[n..], before[n..], "call {call}: places past n were written");
                accepted += 1;
            }
            Err(number) => {
                assert_eq!(list, before, "call {call}: a refusal wrote");
                refused[number as usize] += 1;
            }
        }
    }
    println!("minutes: {CALLS} calls, {accepted} accepted, refusals by number {:?}", &refused[3..]);
    let met = |number: &usize| refused[*number] > 0;
    assert!(accepted > 0 && [3, 9, 10, 11, 12, 13, 14, 15, 16, 17, 18, 19, 22].iter().all(met), "some answer never came up");
}

/// The factors after periods that are within the limits.
fn after(periods: &[(u32, u32)], book: &[u8]) -> Vec<u64> {
    let mut list = [0; MAX_MEMBERS];
    let n = jelmorand::factors_after(periods, book, &mut list).expect("good periods and a good book");
    list[..n].to_vec()
}

/// So many minutes at one rate, as few periods as it takes.
fn at_one_rate(rate: u32, minutes: u32) -> Vec<(u32, u32)> {
    let left = minutes % MAX_MINUTES;
    let whole = [(rate, MAX_MINUTES)].repeat((minutes / MAX_MINUTES) as usize);
    if left == 0 {
        whole
    } else {
        [whole, vec![(rate, left)]].concat()
    }
}

/// Minutes at which to look, rising: the first hour, then some with the one after each; now and then the last two that there are.
fn any_looks(random: &mut Random) -> BTreeSet<u32> {
    let last = MAX_PERIODS as u32 * MAX_MINUTES;
    let mut later: Vec<u32> = (0..4).map(|_| random.within(61, 3 * u64::from(MAX_MINUTES)) as u32).collect();
    if random.one_in(20) {
        later.push(last - 1);
    }
    (1..=60).chain(later.into_iter().flat_map(|minute| [minute, minute + 1])).collect()
}

/// Whether no factor of the first list is higher than in the second.
fn none_higher(first: &[u64], second: &[u64]) -> bool {
    first.iter().zip(second).all(|(one, other)| one <= other)
}

/// The reported steady factors, with 2i grains more for member i.
fn reported_and_2i(v: u32, book: &[u8]) -> Vec<u64> {
    let mut list = [0; MAX_MEMBERS];
    let n = jelmorand::factors(v, book, &mut list).expect("a good book");
    list[..n].iter().zip(0..).map(|(grains, i)| grains + 2 * i).collect()
}

/// At one rate no factor is lower than the look before, nor higher than the exact steady one. Since the exact one's denominator can
/// have over a thousand bits, the factors are compared with `steady_at_most`: the largest whole number of grains up to the exact one
/// or, where that is within 2^-19 of a grain below a whole number, perhaps this number. So it is itself at most 2i grains above the
/// reported factor of member i, which is looked at too.
#[test]
fn factors_rise_to_the_steady_ones() {
    let mut random = Random::fresh("rising");
    let mut reached = 0;
    for count in 0..ROOMS {
        let (v, book) = (any_rate(&mut random).min(100_000), good_book(&mut random));
        let most = steady_at_most(&book, v);
        assert!(none_higher(&most, &reported_and_2i(v, &book)), "room {count}: far from reported, v {v}, book {book:?}");
        let mut before = vec![0; most.len()];
        before[0] = GRAINS as u64;
        for minute in any_looks(&mut random) {
            let now = after(&at_one_rate(v, minute), &book);
            assert!(none_higher(&before, &now), "room {count}, minute {minute}: lower than before, v {v}, book {book:?}");
            assert!(none_higher(&now, &most), "room {count}, minute {minute}: higher than steady, v {v}, book {book:?}");
            before = now;
        }
        reached += before.iter().zip(&most).skip(1).filter(|(last, most)| last == most).count();
    }
    println!("rising: {ROOMS} rooms, {reached} factors came up to the steady one");
    assert!(reached > 0, "no factor came up to the steady one, so the comparison says little");
}

/// A period cut in two at the same rate leaves the same factors, alone and among others.
#[test]
fn split_periods_are_one() {
    let mut random = Random::fresh("splits");
    for count in 0..SPLITS {
        let (v, book) = (any_rate(&mut random).min(100_000), good_book(&mut random));
        let (first, second) = (random.of_any_size(720) as u32, random.of_any_size(720) as u32);
        let others = random.within(0, 3);
        let (early, late) = (periods_of(&mut random, others), periods_of(&mut random, others));
        let one = [&early[..], &[(v, first + second)], &late].concat();
        let two = [&early[..], &[(v, first), (v, second)], &late].concat();
        assert_eq!(after(&two, &book), after(&one, &book), "split {count}: periods {two:?}, book {book:?}");
    }
}

/// The most periods of the most minutes, against the rewrite.
#[test]
fn longest_periods() {
    let mut random = Random::fresh("longest");
    let book = good_book(&mut random);
    let periods: Vec<(u32, u32)> = (0..MAX_PERIODS).map(|_| (any_rate(&mut random).min(100_000), MAX_MINUTES)).collect();
    let mut expected = [0; MAX_MEMBERS];
    let n = plain_minutes::factors_after(&in_turn(&periods), &book, &mut expected).expect("good periods and a good book");
    assert_eq!(after(&periods, &book), expected[..n], "periods {periods:?}, book {book:?}");
}

/// Both edges of the count and of the length, before the book; and a rate before either, wherever it stands in the list.
#[test]
fn periods_out_of_range_are_refused() {
    let number = |periods: &[(u32, u32)]| jelmorand::factors_after(periods, &[], &mut []).map_err(|refusal| refusal.number());
    for periods in [&[][..], &[(0, 0)], &[(0, 1_441)], &[(0, u32::MAX)], &[(0, 1), (100_000, 0)], &[(0, 1)].repeat(33)] {
        assert_eq!(number(periods), Err(22), "{periods:?}");
    }
    for periods in [&[(100_001, 1)][..], &[(0, 1), (100_001, 0)], &[(0, 0), (u32::MAX, 1)], &[(100_001, 0)].repeat(40)] {
        assert_eq!(number(periods), Err(3), "{periods:?}");
    }
    for periods in [&[(0, 1)][..], &[(100_000, 1_440)], &[(0, 1)].repeat(32)] {
        assert_eq!(number(periods), Err(9), "{periods:?}");
    }
}

/// A list of any length is read whole for a rate that is too high before it is refused as too long.
#[test]
fn long_lists_are_read_whole() {
    for count in [33, 34, 100] {
        for at in [0, 31, 32, count - 1] {
            let mut periods = vec![(0, 1); count];
            periods[at].0 = 100_001;
            assert_eq!(jelmorand::factors_after(&periods, &[], &mut []), Err(Refusal::RateTooHigh), "{at} of {count}");
            periods[at] = (0, 0);
            assert_eq!(jelmorand::factors_after(&periods, &[], &mut []), Err(Refusal::PeriodsOutOfRange), "{at} of {count}");
        }
    }
}
