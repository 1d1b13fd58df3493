//! The lowest rate, rewritten from R-6 of document 02. The lowest rates are tried one by one; only above them is it used that the
//! verdict, once 'below', stays so at every higher rate.
use super::plain_job::{admitted, Admitted};

pub const HIGHEST: u32 = 100_000;

/// Up to this rate each is tried.
pub const ONE_BY_ONE: u32 = 400;

/// So many rates on either side of an answer above that are tried too.
const NEIGHBOURS: u32 = 20;

fn is_below(job: &Admitted, v: u32) -> bool {
    job.verdict_at(v) == "below"
}

/// A rate that is not 'below' and a higher one that is, by steps that double.
fn span(job: &Admitted) -> Option<(u32, u32)> {
    let (mut low, mut step) = (ONE_BY_ONE, 1);
    while low < HIGHEST {
        let high = HIGHEST.min(low + step);
        if is_below(job, high) {
            return Some((low, high));
        }
        (low, step) = (high, 2 * step);
    }
    None
}

/// The lowest rate above those that are tried one by one: the span is halved, then the rates on either side are tried.
fn beyond(job: &Admitted) -> Option<u32> {
    let (mut low, mut high) = span(job)?;
    while high - low > 1 {
        let middle = (low + high) / 2;
        if is_below(job, middle) {
            high = middle;
        } else {
            low = middle;
        }
    }
    assert!((high - NEIGHBOURS..high).all(|v| !is_below(job, v)), "a rate below {high} would do");
    assert!((high..=HIGHEST.min(high + NEIGHBOURS)).all(|v| is_below(job, v)), "a rate above {high} would not do");
    Some(high)
}

/// The call: checks 1 to 18.
pub fn lowest_rate(bytes: &[u8]) -> Result<Option<u32>, u32> {
    let job = admitted(bytes)?;
    Ok((0..=ONE_BY_ONE).find(|v| is_below(&job, *v)).or_else(|| beyond(&job)))
}

/// The same, with every rate tried in turn.
pub fn first_of_all(bytes: &[u8]) -> Result<Option<u32>, u32> {
    let job = admitted(bytes)?;
    Ok((0..=HIGHEST).find(|v| is_below(&job, *v)))
}
