//! The marks of a table: against the plain rewrite on random tables, on entries that end next to where the exact factor may be, and
//! on the recorded tables; and against what R-8 of document 02 promises.
mod common;

use common::books::{any_book, book_of, good_book};
use common::elsewhere::{any_table, change, long_table, neighbour, printed};
use common::plain::{self, LN2_HOURS};
use common::random::Random;
use common::tables::chosen_book_under;
use common::{plain_marks, plain_table, recorded};
use jelmorand::{Marks, Place, Refusal, TABLE_ROOM};

const TEXTS: usize = 40_000;
const BOOKS: usize = 3_000;
const PROMISES: usize = 3_000;
const LONG_TEXTS: usize = 300;

fn marks(text: &[u8], book: &[u8]) -> Result<Marks, u32> {
    jelmorand::marks(text, book).map_err(|refusal| refusal.number())
}

fn shown(text: &[u8]) -> String {
    String::from_utf8_lossy(text).into_owned()
}

/// How often each refusal came up, how many entries had each mark, and how many tables a wrong entry and none.
#[derive(Default)]
struct Met {
    refused: [usize; 25],
    marked: [usize; 3],
    tables: [usize; 2],
}

impl Met {
    fn add(&mut self, answer: &Result<Marks, u32>) {
        match answer {
            Ok(Marks { right, close, wrong, first }) => {
                let counts = [*right, *close, *wrong];
                self.marked.iter_mut().zip(counts).for_each(|(sum, count)| *sum += count);
                self.tables[usize::from(first.is_some())] += 1;
            }
            Err(number) => self.refused[*number as usize] += 1,
        }
    }
}

#[test]
fn marks_agree_with_the_rewrite() {
    let mut random = Random::fresh("marks");
    let mut met = Met::default();
    for count in 0..TEXTS {
        let book = if random.one_in(4) { any_book(&mut random) } else { good_book(&mut random) };
        let text = any_table(&mut random, &book);
        let answer = marks(&text, &book);
        assert_eq!(answer, plain_marks::marks(&text, &book), "text {count}: {:?}, book {book:?}", shown(&text));
        met.add(&answer);
    }
    let Met { refused, marked, tables } = met;
    println!("marks: {TEXTS} texts, right, close, wrong {marked:?}, refusals by number {:?}", &refused[9..]);
    let numbers = refused[9..=18].iter().chain(&refused[24..]);
    assert!(numbers.chain(&marked[..1]).chain(&marked[2..]).chain(&tables).all(|n| *n > 0), "some answer never came up");
}

/// The entries at rate 100 and their neighbours, one line after the other, where the factor or the most that the exact one may be is
/// next to an end.
fn near_ends(random: &mut Random) -> (Vec<u8>, String) {
    let step = 2 * random.within(0, 1);
    let (book, factors) = chosen_book_under(random, step);
    let entries: Vec<String> = factors.iter().map(|grains| plain_table::entry(*grains)).collect();
    let below: Vec<String> = entries.iter().map(|entry| neighbour(entry, false)).collect();
    let above: Vec<String> = entries.iter().map(|entry| neighbour(entry, true)).collect();
    let lines = [entries, below, above].map(|entries| format!("100 {}\n", entries.join(" ")));
    (book, lines.concat())
}

#[test]
fn entries_are_marked_at_their_ends() {
    let mut random = Random::fresh("ends");
    let mut met = Met::default();
    for count in 0..BOOKS {
        let (book, text) = near_ends(&mut random);
        let answer = marks(text.as_bytes(), &book);
        assert_eq!(answer, plain_marks::marks(text.as_bytes(), &book), "book {count}: {book:?}, text {text:?}");
        met.add(&answer);
    }
    println!("ends: {BOOKS} books, right, close, wrong {:?}", met.marked);
    assert!(met.marked.iter().all(|n| *n > 0), "some mark never came up");
}

#[test]
fn recorded_tables_are_marked() {
    for (count, (text, book)) in recorded::tables().iter().enumerate() {
        assert_eq!(marks(text, book), plain_marks::marks(text, book), "recorded table {count}: {:?}, book {book:?}", shown(text));
    }
}

/// What `table` writes is never wrong, and every entry of it is marked.
#[test]
fn own_tables_are_never_wrong() {
    let mut random = Random::fresh("own tables");
    for _ in 0..PROMISES {
        let (book, count) = (good_book(&mut random), random.within(1, 20));
        let text = printed(&mut random, &book, count);
        let Marks { right, close, wrong, first } = marks(&text, &book).expect("a table of the book");
        assert_eq!(
            (right + close, wrong, first),
            (count as usize * usize::from(book[0]), 0, None),
            "{:?}, {book:?}",
            shown(&text)
        );
    }
}

/// A book of the parent gas and one member that it feeds, and an entry for that at rate 100: as it is printed, or one next to it.
fn two_members(random: &mut Random) -> (Vec<u8>, String) {
    let step = 2 * random.within(0, 1);
    let (book, factors) = chosen_book_under(random, step);
    if factors.len() < 2 {
        return two_members(random);
    }
    let feeds = 8 + 32 * factors.len();
    let entry = plain_table::entry(factors[1]);
    let entry = if random.one_in(3) { entry } else { neighbour(&entry, random.one_in(2)) };
    ([&[2, 1], &book[2..72], &book[feeds..feeds + 8]].concat(), entry)
}

/// Whether the exact factor of that member at rate 100 is within half a unit of the entry's last place. The factor is the share times
/// K, over 100,000 times K + 100·T; both sides are multiplied out.
fn holds_exact_factor(entry: &str, book: &[u8]) -> bool {
    let chain = plain::read(book).expect("a good book");
    let above = u128::from(chain.feeds[0].share) * LN2_HOURS;
    let below = 100_000 * (LN2_HOURS + 100 * u128::from(chain.members[1].half_life));
    let thousandths: u128 = entry[..5].replace('.', "").parse().expect("four digits");
    let places: u32 = entry[7..].parse().expect("two digits");
    (2 * above * 10u128.pow(places + 3)).abs_diff(2 * thousandths * below) <= below
}

/// The exact factor is within half a unit of a right entry, and not of a wrong one.
#[test]
fn marks_speak_of_the_exact_factor() {
    let mut random = Random::fresh("exact factor");
    let mut met = Met::default();
    for _ in 0..PROMISES {
        let (book, entry) = two_members(&mut random);
        let line = format!("100 1.000E+00 {entry}\n");
        let answer = marks(line.as_bytes(), &book);
        let Marks { right, wrong, .. } = answer.expect("a table of the form");
        let held = holds_exact_factor(&entry, &book);
        assert!(if right == 2 { held } else { wrong == 0 || !held }, "{line:?}, book {book:?}");
        met.add(&answer);
    }
    println!("exact factor: the parent's entry and one more, right, close, wrong {:?}", met.marked);
    assert!(met.marked.iter().all(|n| *n > 0), "some mark never came up");
}

/// A text that is too long for any table is answered as its first bytes are, one more than the longest table has.
#[test]
fn long_texts_are_answered_as_their_start() {
    let mut random = Random::fresh("long texts");
    for _ in 0..LONG_TEXTS {
        let book = any_book(&mut random);
        let mut text = long_table(&mut random, &book, TABLE_ROOM);
        if random.one_in(4) {
            change(&mut random, &mut text);
        }
        let answer = marks(&text, &book);
        assert_eq!(answer, plain_marks::marks(&text, &book), "{} bytes, book {book:?}", text.len());
        assert_eq!(answer, marks(&text[..text.len().min(TABLE_ROOM + 1)], &book), "{} bytes, book {book:?}", text.len());
    }
}

/// Six digits of every rate, and the most members: the longest table is marked, and with a byte more or a line end less it is none.
#[test]
fn longest_table_is_marked() {
    let book = book_of(&mut Random::fresh("longest table"), 16, 64);
    let text = jelmorand::table(&[100_000; jelmorand::MAX_RATES], &book).expect("a good book");
    assert_eq!(text.len(), TABLE_ROOM);
    let Marks { right, close, .. } = jelmorand::marks(text.as_bytes(), &book).expect("a table of the form");
    assert_eq!(right + close, 16 * jelmorand::MAX_RATES);
    let longer = [text.as_bytes(), &text.as_bytes()[..167]].concat();
    for end in [0, TABLE_ROOM - 1, TABLE_ROOM + 1, TABLE_ROOM + 167] {
        assert_eq!(jelmorand::marks(&longer[..end], &book), Err(Refusal::TableNotOfForm), "{end} bytes");
    }
}

/// Each entry in turn is the one wrong one: line and member are its own, and so are those of the first of two.
#[test]
fn first_wrong_entry_is_named() {
    let book = book_of(&mut Random::fresh("first wrong"), 16, 64);
    let text = jelmorand::table(&[0, 18, 100], &book).expect("a good book");
    let places = text.match_indices(' ').map(|(at, _)| at + 1).collect::<Vec<usize>>();
    for (count, at) in places.iter().enumerate() {
        let mut changed = text.clone();
        for at in [*at, places[places.len() - 1]] {
            changed.replace_range(at..at + 9, "9.999E+00");
        }
        let Marks { wrong, first, .. } = jelmorand::marks(changed.as_bytes(), &book).expect("a table of the form");
        assert_eq!(first, Some(Place { line: count / 16 + 1, member: count % 16 }));
        assert_eq!(wrong, if count + 1 == places.len() { 1 } else { 2 });
    }
}
