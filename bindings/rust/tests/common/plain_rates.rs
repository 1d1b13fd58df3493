//! The call for many rates, rewritten from R-9 of document 02: the rewrite of the factor call, rate by rate, which reads the book anew
//! for each; and the rows of a book that is read once, to be timed.
use super::plain::{self, Chain};

/// Places k·width up to (k + 1)·width, as far as there are such.
fn row(k: usize, width: usize, rows: &mut [u64]) -> &mut [u64] {
    let place = |k: usize| (k as u128 * width as u128).min(rows.len() as u128) as usize;
    let places = place(k)..place(k + 1);
    &mut rows[places]
}

/// Answers how many rates were run.
pub fn factors_at_rates(rates: &[u32], book: &[u8], width: usize, answers: &mut [i64], rows: &mut [u64]) -> usize {
    for (k, (rate, answer)) in rates.iter().zip(&mut *answers).enumerate() {
        *answer = match plain::factors(*rate, book, row(k, width, rows)) {
            Ok(n) => n as i64,
            Err(number) => -i64::from(number),
        };
    }
    rates.len().min(answers.len())
}

/// Each rate's factors at the start of its row.
pub fn fill_rows(rates: &[u32], chain: &Chain, width: usize, rows: &mut [u64]) {
    for (rate, row) in rates.iter().zip(rows.chunks_exact_mut(width)) {
        plain::fill(chain, *rate, row);
    }
}
