//! The calls that answer a list, a text or a rate.
use crate::coefficients::lent;
use crate::periods::Flat;
use crate::{library, CoefficientSet, Refusal};

/// What an answer of the library says: itself where it is not negative, and minus the refusal's number otherwise. Every call answers so,
/// and so does `factors_at_rates_into` for each rate.
pub fn answered(answer: i64) -> Result<usize, Refusal> {
    let number = |answer: i64| u32::try_from(answer.unsigned_abs()).unwrap_or(u32::MAX);
    usize::try_from(answer).map_err(|_| Refusal::from_number(number(answer)))
}

/// The factor of every member of a chain book at a rate (hundredths of an air change per hour), in grains of 2^-40 of the parent's
/// activity, into the first places of `out`. Answers how many; a refusal leaves `out` as it was.
pub fn factors(rate: u32, book: &[u8], out: &mut [u64]) -> Result<usize, Refusal> {
    answered(library::factors(rate, book, out))
}

/// The factor of every member of a chain book after 1 to 32 periods of airing, minute by minute from a shut room, in which all but
/// the parent are 0; in grains as in `factors`, into the first places of `out`. A period is a rate (hundredths of an air change per
/// hour) and its minutes (1 to 1,440). Answers how many factors there are; a refusal leaves `out` as it was.
pub fn factors_after(periods: &[(u32, u32)], book: &[u8], out: &mut [u64]) -> Result<usize, Refusal> {
    answered(library::factors_after(Flat::of(periods).numbers(), book, out))
}

/// The report of a whole job, the job's 48 bytes and its chain book: the lines that `screen` writes.
#[cfg(feature = "std")]
pub fn report(job: &[u8]) -> String {
    let mut room = [0; crate::REPORT_ROOM];
    let length = report_into(job, &mut room).expect("no report is longer");
    text(&room[..length])
}

/// The report of a whole job, written to the start of `out`. Answers its length; one that is longer than `out` is
/// `Refusal::BufferTooShort`, which leaves `out` as it was. `REPORT_ROOM` bytes suffice for any.
pub fn report_into(job: &[u8], out: &mut [u8]) -> Result<usize, Refusal> {
    answered(library::report(job, out))
}

/// The lowest rate (hundredths of an air change per hour) at which the verdict on a whole job, the job's 48 bytes and its chain book,
/// is `Verdict::Below`; `None` where no rate from 0 to 100,000 gives it. The job's own rate is checked, and otherwise ignored.
pub fn lowest_rate(job: &[u8]) -> Result<Option<u32>, Refusal> {
    lowest_rate_with(job, None).map(|lowest| lowest.rate)
}

/// A job's lowest rate, and whose coefficients it is of.
#[derive(Clone, Copy, Debug, PartialEq, Eq)]
pub struct LowestRate {
    /// Hundredths of an air change per hour; `None` where no rate is enough.
    pub rate: Option<u32>,
    /// The set in use.
    pub set: CoefficientSet,
}

/// The lowest rate as `lowest_rate` answers it, with a second set of coefficients in use where one is lent, as in `screen_with`.
pub fn lowest_rate_with(job: &[u8], coefficients: Option<&[u8]>) -> Result<LowestRate, Refusal> {
    /// What the library answers where there is none: one more than the highest rate.
    const NO_RATE: u32 = 100_001;
    let mut set = 0;
    let answer = answered(library::lowest_rate(job, lent(coefficients), &mut set))?;
    let rate = u32::try_from(answer).expect("the contracts name no other answer");
    Ok(LowestRate { rate: (rate != NO_RATE).then_some(rate), set: CoefficientSet::from_number(set) })
}

/// The table of a chain book at 1 to 200 rates (hundredths of an air change per hour). Each rate has one line, in the list's order:
/// the rate, then every member's factor as its share of the parent's, such as `5.000E-01`, rounded to the nearest, halves up.
#[cfg(feature = "std")]
pub fn table(rates: &[u32], book: &[u8]) -> Result<String, Refusal> {
    let mut room = vec![0; crate::TABLE_ROOM];
    let length = table_into(rates, book, &mut room)?;
    Ok(text(&room[..length]))
}

/// The table of a chain book at 1 to 200 rates, written to the start of `out`. Answers its length; a refusal leaves `out` as it
/// was. `TABLE_ROOM` bytes suffice for any.
pub fn table_into(rates: &[u32], book: &[u8], out: &mut [u8]) -> Result<usize, Refusal> {
    answered(library::table(rates, book, out))
}

#[cfg(feature = "std")]
fn text(bytes: &[u8]) -> String {
    core::str::from_utf8(bytes).expect("a text is ASCII").to_owned()
}

#[cfg(test)]
mod tests {
    use super::{answered, Refusal};

    #[test]
    fn negative_answers_are_refusals() {
        assert_eq!((answered(0), answered(5)), (Ok(0), Ok(5)));
        assert_eq!(answered(-3), Err(Refusal::RateTooHigh));
        assert_eq!(answered(-25), Err(Refusal::Other(25)));
        assert_eq!(answered(i64::MIN), Err(Refusal::Other(u32::MAX)));
    }
}
