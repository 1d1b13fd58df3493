//! Random runs at many rates: rates, a book, rows that are wide, narrow or cut short, and more or fewer answers than rates.
use super::books::{any_book, any_rate};
use super::random::Random;

/// What a run is lent.
#[derive(Debug)]
pub struct Run {
    pub rates: Vec<u32>,
    pub book: Vec<u8>,
    pub width: usize,
    pub answers: Vec<i64>,
    pub rows: Vec<u64>,
}

/// Mostly few rates; now and then none, or more than a table has.
fn any_rates(random: &mut Random) -> Vec<u32> {
    let count = match random.within(1, 20) {
        1 => 0,
        2 => random.within(200, 240),
        _ => random.within(1, 12),
    };
    (0..count).map(|_| any_rate(random)).collect()
}

/// Mostly room for the book's members or a few places more; now and then less, or more than any list has, so that the first
/// places of later rows are numbers that no usize holds.
fn any_width(random: &mut Random, members: u64) -> usize {
    let places = match random.within(1, 16) {
        1 => 0,
        2 | 3 => random.within(0, members),
        4..=6 => members,
        7 => members - 1,
        8 => u64::MAX - random.within(0, 1),
        9 => 1 << random.within(60, 63),
        10 => u64::MAX / random.within(1, 12) + random.within(0, 1),
        11 => random.next(),
        _ => random.within(16, 24),
    };
    places as usize
}

/// Mostly as many places as the rows have; now and then some more, or fewer, so that the last row is cut short or rows are missing.
fn any_room(random: &mut Random, rates: usize, width: usize) -> usize {
    let whole = rates.saturating_mul(width).min(rates * 24);
    match random.within(1, 8) {
        1 => random.within(0, whole as u64) as usize,
        2 => whole.saturating_sub(random.within(1, 24) as usize),
        3 => whole + random.within(1, 24) as usize,
        _ => whole,
    }
}

/// Both lists hold any numbers.
pub fn any_run(random: &mut Random) -> Run {
    let (rates, book) = (any_rates(random), any_book(random));
    let members = u64::from(book.first().copied().unwrap_or(1)).clamp(1, 16);
    let width = any_width(random, members);
    let answers = match random.within(1, 6) {
        1 => random.within(0, rates.len() as u64) as usize,
        2 => rates.len() + random.within(1, 6) as usize,
        _ => rates.len(),
    };
    let room = any_room(random, rates.len(), width);
    let rows = (0..room).map(|_| random.next()).collect();
    let answers = (0..answers).map(|_| random.next() as i64).collect();
    Run { rates, book, width, answers, rows }
}
