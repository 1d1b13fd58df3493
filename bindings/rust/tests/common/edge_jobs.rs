//! Jobs whose target lies at the bound, where one step of it makes another verdict.
use super::books::{any_job, book_of};
use super::plain_job;
use super::random::Random;

const MOST_TARGET: u32 = 1_000_000_000;

pub fn with_target(job: &[u8], target: u32) -> Vec<u8> {
    let mut changed = job.to_vec();
    changed[8..12].copy_from_slice(&target.to_le_bytes());
    changed
}

pub fn with_rate(job: &[u8], v: u32) -> Vec<u8> {
    let mut changed = job.to_vec();
    changed[..4].copy_from_slice(&v.to_le_bytes());
    changed
}

/// The least target whose verdict is one of these, which once met are met by every higher target; the highest if there is none.
pub fn least_target(job: &[u8], verdicts: &[&str]) -> u32 {
    let (mut low, mut high) = (0, MOST_TARGET);
    while low < high {
        let middle = low + (high - low) / 2;
        let text = plain_job::report(&with_target(job, middle));
        if verdicts.iter().any(|verdict| text.contains(verdict)) {
            high = middle;
        } else {
            low = middle + 1;
        }
    }
    low
}

/// A job of indoor air in a home, so many Bq/m³, with a target of 0.
pub fn home_job(v: u32, kind: u8, value: u64, book: &[u8]) -> Vec<u8> {
    let mut job = v.to_le_bytes().to_vec();
    job.extend([kind, 0, 2, 0, 0, 0, 0, 0]);
    job.extend(1_000_000u32.to_le_bytes());
    job.extend((value as f64).to_le_bytes());
    job.extend(0f64.to_le_bytes());
    job.extend([350u16, 6, 96, 10, 350, 20, 96, 20].iter().flat_map(|number| number.to_le_bytes()));
    job.extend(book);
    job
}

/// A job whose last member has a factor of few grains under large coefficients, and no other member any: then the grains that High
/// adds are worth whole steps of the target, so that some targets are 'close'.
fn thin_job(random: &mut Random) -> Vec<u8> {
    let n = random.within(2, 6) as usize;
    let mut book = book_of(random, n, n - 1);
    for (i, member) in book[8..8 + 32 * n].chunks_mut(32).enumerate() {
        member[..8].copy_from_slice(&random.within(1_000_000_000_000, 60_000_000_000_000).to_le_bytes());
        for number in member[8..24].chunks_mut(4) {
            let large = random.within(40_000_000, 4_000_000_000) as u32;
            number.copy_from_slice(&(if i + 1 < n { 0 } else { large }).to_le_bytes());
        }
    }
    let (v, kind) = (random.within(10_000, 100_000) as u32, random.within(0, 1) as u8);
    home_job(v, kind, random.of_any_size(4_000_000), &book)
}

/// A job with its target at the first that is not 'above' or the first that is 'below', or one less. A refused job stays as it is.
pub fn edge_job(random: &mut Random) -> Vec<u8> {
    let job = if random.one_in(2) { any_job(random) } else { thin_job(random) };
    if plain_job::report(&job).starts_with("refused") {
        return job;
    }
    let verdicts: &[&str] = if random.one_in(2) { &["verdict below"] } else { &["verdict below", "verdict close"] };
    let target = least_target(&job, verdicts);
    with_target(&job, target.saturating_sub(random.within(0, 1) as u32))
}
