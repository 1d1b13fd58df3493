//! The factor call against the plain rewrite, on random books: the answer and every place of the lent list.
mod common;

use common::books::{any_book, any_rate};
use common::plain;
use common::random::Random;

const CALLS: usize = 40_000;

#[test]
fn factors_agree_with_the_rewrite() {
    let mut random = Random::fresh("factors");
    let mut accepted = 0;
    let mut refused = [0; 20];
    for call in 0..CALLS {
        let book = any_book(&mut random);
        let v = any_rate(&mut random);
        let room = if random.one_in(3) { random.within(0, 20) } else { random.within(16, 40) };
        let before: Vec<u64> = (0..room).map(|_| random.next()).collect();
        let mut expected_list = before.clone();
        let mut list = before.clone();
        let expected = plain::factors(v, &book, &mut expected_list);
        let answer = jelmorand::factors(v, &book, &mut list).map_err(|refusal| refusal.number());
        assert_eq!(answer, expected, "call {call}: v {v}, room {room}, book {book:?}");
        assert_eq!(list, expected_list, "call {call}: v {v}, room {room}, book {book:?}");
        match answer {
            Ok(n) => {
                assert_eq!(list[n..], before[n..], "call {call}: places past n were written");
                accepted += 1;
            }
            Err(number) => {
                assert_eq!(list, before, "call {call}: a refusal wrote");
                refused[number as usize] += 1;
            }
        }
    }
    println!("factors: {CALLS} calls, {accepted} accepted, refusals by number {:?}", &refused[3..]);
    let met = |number: &usize| refused[*number] > 0;
    assert!(accepted > 0 && [3, 9, 10, 11, 12, 13, 14, 15, 16, 17, 18, 19].iter().all(met), "some answer never came up");
}

#[test]
fn empty_lists_are_refused() {
    assert_eq!(jelmorand::factors(0, &[], &mut []).map_err(|r| r.number()), Err(9));
    assert_eq!(jelmorand::report(&[]), "refused 1\n");
}
