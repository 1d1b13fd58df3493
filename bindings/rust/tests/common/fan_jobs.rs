//! Jobs in which the rate matters: the later members have half-lives as in radon's chain, and all of the coefficients.
use super::books::book_of;
use super::edge_jobs::{home_job, least_target, with_target};
use super::plain_lowest::HIGHEST;
use super::random::Random;

/// A book of n members and m feeds; the gas has coefficients only if it is alone.
fn fan_book(random: &mut Random, n: usize, m: usize) -> Vec<u8> {
    let mut book = book_of(random, n, m);
    for (i, member) in book[8..8 + 32 * n].chunks_mut(32).enumerate() {
        member[..8].copy_from_slice(&random.within(60_000_000_000, 1_800_000_000_000).to_le_bytes());
        for number in member[8..24].chunks_mut(4) {
            let some = random.within(100_000, 1_000_000) as u32;
            number.copy_from_slice(&(if i > 0 || n == 1 { some } else { 0 }).to_le_bytes());
        }
    }
    book
}

/// A job at rate v, whose target is the least that is 'below' there. So its lowest rate is v or, where a step of the target is worth
/// more than one of the rate, somewhat less. That of a gas alone is 0.
pub fn fan_job(random: &mut Random, n: usize, m: usize, v: u32) -> Vec<u8> {
    let book = fan_book(random, n, m);
    let job = home_job(v, random.within(0, 1) as u8, random.within(100, 1_000), &book);
    with_target(&job, least_target(&job, &["verdict below"]))
}

/// A job that is 'below' at no rate, since its target is one less than the highest rate needs.
pub fn hopeless_job(random: &mut Random, n: usize, m: usize) -> Vec<u8> {
    let job = fan_job(random, n, m, HIGHEST);
    with_target(&job, least_target(&job, &["verdict below"]) - 1)
}
