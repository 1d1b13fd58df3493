//! The portfolio run in plain Rust (document 02, R-9): what the proved program `portfolio` is timed beside.
//!
//!     rustc -O --edition 2024 docs/src/portfolio.rs
//!     portfolio BOOKFILE FROM TO STEP
//!
//! It is written from document 01 alone, with the standard library alone, and is made to be fast: the checks kept, one thread,
//! the instructions that every x86-64 has. `compare_portfolio.py` compares its output with ours, byte for byte, and times both;
//! `portfolio_times.rs` times the computing alone.
//!
//! What was tried, in microseconds for the computing alone, 10,000 rates of a book of 16 members and 64 feeds, on one machine:
//!
//! | | |
//! |---|---|
//! | one rate at a time, a u128 division for each factor: each member waits for the one before | 1,190 |
//! | 2, 4 and 8 rates side by side, the same; 4 are kept | 765, 580, 613 |
//! | 2, 4 and 8 side by side, the reciprocal of each divisor by a u128 division, which waits for nothing, then a multiplication | 720, 700, 685 |
//! | 8 side by side, the reciprocal as an f64, a floor that is in doubt anew in u128 | 420 |
//! | 16 side by side, all in f64, a row in which a floor is in doubt anew in u128 | 250 |
//!
//! The last two are not kept: that no floor is missed rests on an account of the error of every operation, which nobody can see at a
//! glance and no run of the program shows.
//!
//! The text of the same rows: two digits at a time 970, sixteen digits at once by multiplications 1,480, four digits at a time
//! from a table 390, which is kept.

use std::env;
use std::ffi::{OsStr, OsString};
use std::fs;
use std::io::{self, Write};
use std::process::ExitCode;

// ---- The book -----------------------------------------------------------------------------------

pub const MEMBERS: usize = 16;
const FEEDS: usize = 64;
const HEADER_LENGTH: usize = 8;
const MEMBER_LENGTH: usize = 32;
const FEED_LENGTH: usize = 8;

/// Grains in one.
pub const G: u64 = 1 << 40;
/// 0.693147181 times 3.6 * 10^14.
const K: u64 = 249_532_985_160_000;
/// A share of one.
const WHOLE: u64 = 100_000;
const HIGHEST_RATE: u32 = 100_000;
const LONGEST_OF_PARENT: u64 = 1_000_000_000_000_000;
const LONGEST: u64 = 60_000_000_000_000;
const HIGHEST_NUMBER: u32 = 4_000_000_000;

/// An accepted book, as the balance needs it.
pub struct Chain {
    count: usize,
    members: [Member; MEMBERS],
    /// In the order of the walk, so that each member's feeds stand side by side.
    feeds: [Feed; FEEDS],
}

#[derive(Clone, Copy, Default)]
struct Member {
    half_life: u64,
    /// Its feeds end before this one, and start where those of the member before end.
    end: usize,
}

#[derive(Clone, Copy, Default)]
struct Feed {
    share: u64,
    from: usize,
}

/// Checks 9 to 18 in their order; refused, the answer is the number of the ground.
pub fn read_book(book: &[u8]) -> Result<Chain, u32> {
    refuse_if(book.len() < HEADER_LENGTH, 9)?;
    let (n, m) = (book[0] as usize, book[1] as usize);
    refuse_if(!(1..=MEMBERS).contains(&n) || m > FEEDS, 10)?;
    refuse_if(book.len() != HEADER_LENGTH + MEMBER_LENGTH * n + FEED_LENGTH * m, 11)?;
    let (header, rest) = book.split_at(HEADER_LENGTH);
    let (members, feeds) = rest.split_at(MEMBER_LENGTH * n);
    let members: Vec<&[u8]> = members.chunks_exact(MEMBER_LENGTH).collect();
    let feeds: Vec<&[u8]> = feeds.chunks_exact(FEED_LENGTH).collect();

    let divisor = u16::from_le_bytes([header[2], header[3]]);
    let mut zeros = members.iter().map(|member| &member[29..]).chain(feeds.iter().map(|feed| &feed[6..])).chain([&header[4..]]);
    refuse_if(divisor == 0 || zeros.any(|bytes| bytes.iter().any(|&byte| byte != 0)), 12)?;
    refuse_if(members.iter().enumerate().any(|(i, member)| !is_member_in_range(i, member)), 13)?;
    let is_feed_in_range = |feed: &&[u8]| (1..=WHOLE).contains(&share_of(feed)) && from_of(feed) < n && next_of(feed) <= m;
    refuse_if(!feeds.iter().all(is_feed_in_range) || members.iter().any(|member| first_of(member) > m), 14)?;

    let mut chain = Chain { count: n, members: [Member::default(); MEMBERS], feeds: [Feed::default(); FEEDS] };
    walk(&mut chain, &members, &feeds)?;
    refuse_if((0..n).any(|i| (i == 0) != chain.feeds_into(i).is_empty()), 16)?;
    refuse_if((0..n).any(|i| chain.feeds_into(i).iter().any(|feed| feed.from >= i)), 17)?;
    let mut shares_out = [0; MEMBERS];
    chain.feeds[..m].iter().for_each(|feed| shares_out[feed.from] += feed.share);
    refuse_if(shares_out.iter().any(|&shares| shares > WHOLE), 18)?;
    Ok(chain)
}

fn refuse_if(is_met: bool, ground: u32) -> Result<(), u32> {
    if is_met { Err(ground) } else { Ok(()) }
}

fn u32_at(bytes: &[u8], at: usize) -> u32 {
    u32::from_le_bytes(bytes[at..at + 4].try_into().unwrap())
}

fn half_life_of(member: &[u8]) -> u64 {
    u64::from_le_bytes(member[..8].try_into().unwrap())
}

fn first_of(member: &[u8]) -> usize {
    usize::from(member[28])
}

fn share_of(feed: &[u8]) -> u64 {
    u64::from(u32_at(feed, 0))
}

fn from_of(feed: &[u8]) -> usize {
    usize::from(feed[4])
}

fn next_of(feed: &[u8]) -> usize {
    usize::from(feed[5])
}

fn is_member_in_range(i: usize, member: &[u8]) -> bool {
    let longest = if i == 0 { LONGEST_OF_PARENT } else { LONGEST };
    let are_numbers_in_range = (8..28).step_by(4).all(|at| u32_at(member, at) <= HIGHEST_NUMBER);
    (1..=longest).contains(&half_life_of(member)) && are_numbers_in_range
}

/// Check 15; the chain has its members and feeds afterwards.
fn walk(chain: &mut Chain, members: &[&[u8]], feeds: &[&[u8]]) -> Result<(), u32> {
    let mut is_seen = [false; FEEDS];
    let mut end = 0;
    for (member, bytes) in chain.members.iter_mut().zip(members) {
        let mut number = first_of(bytes);
        while number != 0 {
            let feed = feeds[number - 1];
            refuse_if(is_seen[number - 1], 15)?;
            is_seen[number - 1] = true;
            let share = share_of(feed);
            chain.feeds[end] = Feed { share, from: from_of(feed) };
            end += 1;
            number = next_of(feed);
        }
        *member = Member { half_life: half_life_of(bytes), end };
    }
    refuse_if(end < feeds.len(), 15)
}

impl Chain {
    /// How many members it has.
    pub fn count(&self) -> usize {
        self.count
    }

    fn feeds_into(&self, i: usize) -> &[Feed] {
        let start = if i == 0 { 0 } else { self.members[i - 1].end };
        &self.feeds[start..self.members[i].end]
    }
}

// ---- The balance ---------------------------------------------------------------------------------

/// How many rates are worked out side by side, so that a division of one does not wait for that of another.
const LANES: usize = 4;

type Lanes = [u64; LANES];

/// The balance as document 01 has it, for rates of at most 100,000.
///
/// No factor and no F is above G: what flows over any cut of the chain, from the members before it to those after it, is at most what
/// the parent sends out, since no member sends out more than flows into it (check 18). So a sum is at most 100,000 times 2^40, under
/// 2^57, and F times K is under 2^88. K + v times T is at most 6.0003 times 10^18, under 2^63.
#[inline(never)]
fn fill_lanes(chain: &Chain, rates: &Lanes, factors: &mut [Lanes; MEMBERS]) {
    let mut start = 0;
    for i in 1..chain.count.min(MEMBERS) {
        let Member { half_life, end } = chain.members[i];
        let sums = sums_of(&chain.feeds[start..end], factors);
        start = end;
        for l in 0..LANES {
            let divisor = K + rates[l] * half_life;
            factors[i][l] = ((sums[l] / WHOLE) as u128 * K as u128 / divisor as u128) as u64;
        }
    }
}

fn sums_of(feeds: &[Feed], factors: &[Lanes; MEMBERS]) -> Lanes {
    let mut sums = [0; LANES];
    for feed in feeds {
        let from = &factors[feed.from % MEMBERS]; // it is below 16: the compiler need not look again
        for l in 0..LANES {
            sums[l] += feed.share * from[l];
        }
    }
    sums
}

/// The factors of each rate into the first places of its row. A row has `width` places, which is no fewer than the chain's members; the
/// last may have fewer, but not fewer than these. A rate over 100,000 leaves its row as it was.
pub fn fill_rows(chain: &Chain, rates: &[u32], width: usize, rows: &mut [u64]) {
    let mut factors = [[G; LANES]; MEMBERS];
    for (k, rates) in rates.chunks(LANES).enumerate() {
        let mut lanes = [0; LANES];
        for (lane, &rate) in lanes.iter_mut().zip(rates) {
            *lane = u64::from(rate.min(HIGHEST_RATE));
        }
        fill_lanes(chain, &lanes, &mut factors);
        for (l, &rate) in rates.iter().enumerate() {
            if rate <= HIGHEST_RATE {
                let row = &mut rows[(LANES * k + l) * width..][..chain.count];
                row.iter_mut().zip(&factors).for_each(|(place, factors)| *place = factors[l]);
            }
        }
    }
}

/// The call: answer k and row k are those of rate k, by checks 3, 9 to 18 and 19. The answer is how many rates were run.
pub fn factors_at_rates(rates: &[u32], book: &[u8], width: usize, answers: &mut [i64], rows: &mut [u64]) -> usize {
    let run = rates.len().min(answers.len());
    let (rates, answers) = (&rates[..run], &mut answers[..run]);
    let (accepted, filled) = match read_book(book) {
        Err(ground) => (-i64::from(ground), run),
        Ok(chain) => {
            // So many rows from the first have a place for each member; the others are refused with 19.
            let n = chain.count;
            let filled = if width < n || rows.len() < n { 0 } else { run.min((rows.len() - n) / width + 1) };
            fill_rows(&chain, &rates[..filled], width, rows);
            (n as i64, filled)
        }
    };
    for (k, (answer, &rate)) in answers.iter_mut().zip(rates).enumerate() {
        *answer = if rate > HIGHEST_RATE {
            -3
        } else if k < filled {
            accepted
        } else {
            -19
        };
    }
    run
}

// ---- Text ---------------------------------------------------------------------------------------

/// The four digits of each number below 10,000.
static DIGITS: [[u8; 4]; 10_000] = {
    let mut digits = [[0; 4]; 10_000];
    let mut n = 0;
    while n < digits.len() {
        digits[n] = [b'0' + (n / 1_000) as u8, b'0' + (n / 100 % 10) as u8, b'0' + (n / 10 % 10) as u8, b'0' + (n % 10) as u8];
        n += 1;
    }
    digits
};

/// The most that a number takes up while it is written.
const NUMBER_ROOM: usize = 16;

/// A line of rate and factors, with room for a number to be written.
const LINE_ROOM: usize = 10 + 14 * MEMBERS + 1 + NUMBER_ROOM;

fn put_four(place: &mut [u8; NUMBER_ROOM], at: usize, n: u32) {
    place[at..at + 4].copy_from_slice(&DIGITS[n as usize]);
}

/// A number below 10,000 without zeros before it. The answer is how many digits it has.
fn put_first(place: &mut [u8; NUMBER_ROOM], n: u32) -> usize {
    let digits = u32::from_le_bytes(DIGITS[n as usize]); // the first one lowest
    // The last digit stays where all are zeros.
    let zeros = ((digits ^ u32::from_le_bytes(*b"0000")) | 1 << 24).trailing_zeros() / 8;
    place[..4].copy_from_slice(&(digits >> (8 * zeros)).to_le_bytes());
    4 - (zeros as usize & 3)
}

/// A number below 2 * 10^12, as a rate and a factor are; after it, up to its room, stands anything. The answer is where it ends.
#[inline(always)] // a seventh of the instructions of a whole run
fn put_number(text: &mut [u8], at: usize, n: u64) -> usize {
    let place = text[at..].first_chunk_mut().unwrap();
    let length = if n < 10_000 {
        put_first(place, n as u32)
    } else if n < 100_000_000 {
        let n = n as u32;
        let length = put_first(place, n / 10_000);
        put_four(place, length, n % 10_000);
        length + 4
    } else {
        let (high, low) = ((n / 100_000_000) as u32, (n % 100_000_000) as u32);
        let length = if high < 10_000 {
            put_first(place, high)
        } else {
            place[0] = b'1';
            put_four(place, 1, high % 10_000);
            5
        };
        put_four(place, length, low / 10_000);
        put_four(place, length + 4, low % 10_000);
        length + 8
    };
    at + length
}

fn put_text(text: &mut [u8], at: usize, words: &[u8]) -> usize {
    text[at..at + words.len()].copy_from_slice(words);
    at + words.len()
}

fn put_factors(text: &mut [u8], at: usize, rate: u32, factors: &[u64]) -> usize {
    let mut at = put_number(text, at, rate as u64);
    at = put_text(text, at, b" 1099511627776"); // the parent's, which is always G
    for &factor in &factors[1..] {
        text[at] = b' ';
        at = put_number(text, at + 1, factor);
    }
    text[at] = b'\n';
    at + 1
}

fn put_refusal(text: &mut [u8], at: usize, rate: u32, ground: u32) -> usize {
    let at = put_number(text, at, rate as u64);
    let at = put_text(text, at, b" refused ");
    let at = put_number(text, at, ground as u64);
    put_text(text, at, b"\n")
}

// ---- The program --------------------------------------------------------------------------------

const USAGE: &str = "usage: portfolio BOOKFILE FROM TO STEP";

/// How many rates are worked out, written and sent at a time: their rows and their text stay in the nearer caches.
const BLOCK: usize = 256;

struct Run {
    book: Vec<u8>,
    from: u32,
    to: u32,
    step: u32,
}

/// A number in digits alone; one that is too high is taken as the highest.
fn number_of(word: &OsStr) -> Option<u32> {
    let digits = word.as_encoded_bytes();
    let is_number = !digits.is_empty() && digits.iter().all(u8::is_ascii_digit);
    let value = digits.iter().fold(0u32, |n, digit| n.saturating_mul(10).saturating_add(u32::from(digit.wrapping_sub(b'0'))));
    is_number.then_some(value)
}

fn read_words(words: &[OsString]) -> Result<Run, String> {
    let [path, numbers @ ..] = words else { return Err(USAGE.to_string()) };
    let numbers: Option<Vec<u32>> = numbers.iter().map(|word| number_of(word)).collect();
    let Some(&[from, to, step]) = numbers.as_deref() else { return Err(USAGE.to_string()) };
    if step == 0 || from > to {
        return Err("portfolio: the step is 0, or the first rate is over the last".to_string());
    }
    let book = fs::read(path).map_err(|error| format!("portfolio: {}: {error}", path.display()))?;
    Ok(Run { book, from, to, step })
}

fn write_run(run: &Run, out: &mut impl Write) -> io::Result<()> {
    let chain = read_book(&run.book);
    let mut next = u64::from(run.from);
    let mut rates = Vec::with_capacity(BLOCK);
    let mut rows = vec![0; BLOCK * MEMBERS];
    let mut text = vec![0; BLOCK * LINE_ROOM];
    while next <= u64::from(run.to) {
        rates.clear();
        while next <= u64::from(run.to) && rates.len() < BLOCK {
            rates.push(next as u32);
            next += u64::from(run.step);
        }
        let end = match &chain {
            Ok(chain) => {
                fill_rows(chain, &rates, chain.count, &mut rows);
                let lines = rates.iter().zip(rows.chunks(chain.count));
                lines.fold(0, |at, (&rate, row)| match rate {
                    0..=HIGHEST_RATE => put_factors(&mut text, at, rate, row),
                    _ => put_refusal(&mut text, at, rate, 3),
                })
            }
            Err(ground) => rates.iter().fold(0, |at, &rate| match rate {
                0..=HIGHEST_RATE => put_refusal(&mut text, at, rate, *ground),
                _ => put_refusal(&mut text, at, rate, 3),
            }),
        };
        out.write_all(&text[..end])?;
    }
    out.flush()
}

fn main() -> ExitCode {
    let words: Vec<OsString> = env::args_os().skip(1).collect();
    if words.len() == 1 && words[0] == "--help" {
        println!("{USAGE}");
        return ExitCode::SUCCESS;
    }
    let done = read_words(&words)
        .and_then(|run| write_run(&run, &mut io::stdout().lock()).map_err(|error| format!("portfolio: {error}")));
    match done {
        Ok(()) => ExitCode::SUCCESS,
        Err(line) => {
            eprintln!("{line}");
            ExitCode::FAILURE
        }
    }
}
