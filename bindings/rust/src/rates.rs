//! A chain book at many rates, in one run.
use crate::library;
#[cfg(feature = "std")]
use crate::{calls::answered, Factors, Refusal, MAX_MEMBERS};

/// The factor of every member of a chain book at each of many rates (hundredths of an air change per hour), in one run for which the
/// book is read once. Each rate has what `factors` answers: a rate that is too high is refused by itself, and a book that is not
/// accepted is refused at every rate.
#[cfg(feature = "std")]
pub fn factors_at_rates(rates: &[u32], book: &[u8]) -> Vec<Result<Factors, Refusal>> {
    let (mut answers, mut rows) = (vec![0; rates.len()], vec![[0; MAX_MEMBERS]; rates.len()]);
    factors_at_rates_into(rates, book, MAX_MEMBERS, &mut answers, rows.as_flattened_mut());
    let factors = |(answer, places)| answered(answer).map(|count| Factors { places, count });
    answers.into_iter().zip(rows).map(factors).collect()
}

/// The same into lists of the caller's. Row k, from 0, is the places `k * width` up to `(k + 1) * width` of `rows`, fewer where the
/// list ends before that, and none where it ends before the row begins; `MAX_MEMBERS` places are enough for every book.
///
/// Answers how many rates were run: as many as there are, or as there are places in `answers` where these are fewer. For each of them
/// place k of `answers` is the number of members, whose factors the row begins with, or minus the number of a refusal, which leaves the
/// row as it was; `answered` tells which. A row with fewer places than the book has members is `Refusal::ListTooShort`. All other places
/// stay as they were.
///
/// ```
/// # let mut gas = jelmorand::Book::new(1_000);
/// # gas.member(jelmorand::Member {
/// #     half_life: 1, inhalation_risk: 0, submersion_risk: 0, inhalation_dose: 0, submersion_dose: 0, weight: 0,
/// # });
/// # let book = gas.bytes();
/// use jelmorand::{answered, factors_at_rates_into, Refusal};
/// let (mut answers, mut rows) = ([0; 3], [0; 3]);
/// assert_eq!(factors_at_rates_into(&[18, 100_001, 100], &book, 1, &mut answers, &mut rows), 3);
/// assert_eq!(answers.map(answered), [Ok(1), Err(Refusal::RateTooHigh), Ok(1)]);
/// assert_eq!(rows, [1_099_511_627_776, 0, 1_099_511_627_776]);
/// ```
pub fn factors_at_rates_into(rates: &[u32], book: &[u8], width: usize, answers: &mut [i64], rows: &mut [u64]) -> usize {
    let count = library::factors_at_rates(rates, book, width, answers, rows);
    usize::try_from(count).expect("a run is not refused as a whole")
}
