//! A second set of coefficients, rewritten from R-7 of document 02: an answer with one is that of the job whose book has it written
//! over its own numbers.
use super::plain_job::{self, admitted};
use super::plain_lowest;
use super::texts::rate_line;
use std::ops::Range;

const MOST: u32 = 4_000_000_000;

/// Where each member's five numbers are in a job with its book.
fn places(members: usize) -> impl Iterator<Item = Range<usize>> {
    (0..members).map(|i| 64 + 32 * i..84 + 32 * i)
}

/// The book's own numbers as a second set; zeros for what is not there.
pub fn own_set(job: &[u8], members: usize) -> Vec<u8> {
    let number = |at: usize| job.get(at).copied().unwrap_or(0);
    places(members).flatten().map(number).collect()
}

/// The job with the set in its book for the book's own numbers.
pub fn written_over(job: &[u8], set: &[u8]) -> Vec<u8> {
    let mut changed = job.to_vec();
    for (place, numbers) in places(set.len() / 20).zip(set.chunks_exact(20)) {
        changed[place].copy_from_slice(numbers);
    }
    changed
}

/// Whether a set is of so many members, and all its numbers are within the limit.
fn fits(set: &[u8], members: usize) -> bool {
    let within = |number: &[u8]| u32::from_le_bytes([number[0], number[1], number[2], number[3]]) <= MOST;
    set.len() == 20 * members && set.chunks_exact(4).all(within)
}

/// The number of the set in use, and the job with it in its book: checks 1 to 18, and 23 of a set that is lent.
fn in_use(job: &[u8], set: Option<&[u8]>) -> Result<(u32, Vec<u8>), u32> {
    admitted(job)?;
    match set {
        None => Ok((1, job.to_vec())),
        Some(set) if fits(set, usize::from(job[48])) => Ok((2, written_over(job, set))),
        Some(_) => Err(23),
    }
}

/// The lines that `partner` writes.
pub fn partner(job: &[u8], set: Option<&[u8]>) -> String {
    match in_use(job, set) {
        Err(number) => format!("refused {number}\n"),
        Ok((number, job)) => {
            let lowest = plain_lowest::lowest_rate(&job);
            format!("set {number}\n{}{}\n", plain_job::report(&job), rate_line(lowest))
        }
    }
}
