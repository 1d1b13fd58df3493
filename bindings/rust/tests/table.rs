//! The table call against the plain rewrite, on random books and lists of rates: the answer and every byte of the lent buffer; and
//! entries next to their boundaries, over all exponents.
mod common;

use common::books::{any_book, book_of};
use common::plain_table;
use common::random::Random;
use common::tables::{any_rates, chosen_book};
use jelmorand::{Refusal, MAX_RATES, TABLE_ROOM};

const TABLES: usize = 6_000;
const BOOKS: usize = 3_000;

/// A room about as long as the text, where there is one.
fn any_room(random: &mut Random, rates: &[u32], book: &[u8]) -> usize {
    let length = plain_table::text(rates, book).map_or(40, |text| text.len());
    match random.within(1, 5) {
        1 => length,
        2 => length - 1,
        3 => length + random.within(1, 40) as usize,
        4 => random.within(0, length as u64) as usize,
        _ => TABLE_ROOM,
    }
}

#[test]
fn tables_agree_with_the_rewrite() {
    let mut random = Random::fresh("table");
    let mut accepted = 0;
    let mut refused = [0; 22];
    for call in 0..TABLES {
        let (rates, book) = (any_rates(&mut random), any_book(&mut random));
        let room = any_room(&mut random, &rates, &book);
        let before: Vec<u8> = (0..room).map(|_| random.next() as u8).collect();
        let mut expected_bytes = before.clone();
        let mut bytes = before.clone();
        let expected = plain_table::table(&rates, &book, &mut expected_bytes);
        let answer = jelmorand::table_into(&rates, &book, &mut bytes).map_err(|refusal| refusal.number());
        assert_eq!(answer, expected, "call {call}: rates {rates:?}, room {room}, book {book:?}");
        assert_eq!(bytes, expected_bytes, "call {call}: rates {rates:?}, room {room}, book {book:?}");
        match answer {
            Ok(length) => {
                assert_eq!(bytes[length..], before[length..], "call {call}: bytes past the text were written");
                accepted += 1;
            }
            Err(number) => {
                assert_eq!(bytes, before, "call {call}: a refusal wrote");
                refused[number as usize] += 1;
            }
        }
    }
    println!("table: {TABLES} calls, {accepted} accepted, refusals by number {:?}", &refused[3..]);
    let met = |number: &usize| refused[*number] > 0;
    assert!(accepted > 0 && [3, 9, 10, 11, 12, 13, 14, 15, 16, 17, 18, 20, 21].iter().all(met), "some answer never came up");
}

#[test]
fn entries_of_every_exponent() {
    let mut random = Random::fresh("entries");
    let mut exponents = [0; 14];
    let (mut zeros, mut halves) = (0, 0);
    for count in 0..BOOKS {
        let (book, factors) = chosen_book(&mut random);
        let mut list = [0; jelmorand::MAX_MEMBERS];
        assert_eq!(jelmorand::factors(100, &book, &mut list), Ok(factors.len()), "book {count}: {book:?}");
        assert_eq!(list[..factors.len()], factors, "book {count}: {book:?}");
        let text = jelmorand::table(&[100], &book).expect("a good book");
        let entries: Vec<String> = factors.iter().map(|grains| plain_table::entry(*grains)).collect();
        assert_eq!(text, format!("100 {}\n", entries.join(" ")), "book {count}: {book:?}");
        for word in text.trim_end().split(' ').skip(1).filter(|word| *word != "0.000E+00") {
            exponents[word[7..].parse::<usize>().expect("two digits")] += 1;
        }
        zeros += factors.iter().filter(|grains| **grains == 0).count();
        halves += factors.iter().filter(|grains| **grains >= 5 << 35 && grains.trailing_zeros() == 35).count();
    }
    println!("entries: {BOOKS} books, zeros {zeros}, exact halves {halves}, from E+00 to E-13 {exponents:?}");
    assert!(zeros > 0 && halves > 0 && exponents.iter().all(|met| *met > 0), "some entry never came up");
}

/// The longest table: six digits of every rate, and the most members.
#[test]
fn table_room_suffices() {
    let book = book_of(&mut Random::fresh("table room"), 16, 64);
    let rates = [100_000; MAX_RATES];
    let text = jelmorand::table(&rates, &book);
    assert_eq!(text.as_ref().map(|text| text.len()), Ok(TABLE_ROOM));
    assert_eq!(text.map_err(|refusal| refusal.number()), plain_table::text(&rates, &book));
}

#[test]
fn empty_lists_are_refused() {
    let number = |rates: &[u32], book: &[u8]| jelmorand::table_into(rates, book, &mut []).map_err(|refusal| refusal.number());
    let book = book_of(&mut Random::from_seed(1), 1, 0);
    assert_eq!(number(&[], &[]), Err(9));
    assert_eq!(number(&[], &book), Err(20));
    assert_eq!(number(&[0], &book), Err(21));
}

/// A list of any length is read whole for a rate that is too high before it is refused as too long.
#[test]
fn long_lists_are_read_whole() {
    let book = book_of(&mut Random::from_seed(1), 1, 0);
    for count in [201, 202, 5_000] {
        let mut rates = vec![0; count];
        assert_eq!(jelmorand::table_into(&rates, &book, &mut []), Err(Refusal::RateCountOutOfRange), "{count}");
        rates[count - 1] = 100_001;
        assert_eq!(jelmorand::table_into(&rates, &book, &mut []), Err(Refusal::RateTooHigh), "{count}");
    }
}
