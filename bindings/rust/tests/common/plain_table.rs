//! The table call, rewritten from R-3 of document 02 with 128-bit numbers.
use super::plain::{balance, read, Chain, GRAINS};

/// Whether a factor is at least half way from the number printed below this one, of thousandths of 10^-places, to this one.
fn reaches(grains: u64, thousandths: u128, places: u32) -> bool {
    // The sum of both numbers, in units of 10^-(places + 4). Below 1.000 comes 9.999 of the next place.
    let sum = if thousandths == 1_000 { 10_000 + 9_999 } else { 10 * (thousandths + thousandths - 1) };
    2 * u128::from(grains) * 10u128.pow(places + 4) >= sum * GRAINS
}

/// A factor in nine characters: the highest number of the form that it reaches, so the nearest, and the higher of two.
pub fn entry(grains: u64) -> String {
    let Some(places) = (0..=13).find(|places| reaches(grains, 1_000, *places)) else {
        return "0.000E+00".to_owned();
    };
    let mut thousandths = 1_000;
    for step in [1_000, 100, 10, 1] {
        while reaches(grains, thousandths + step, places) {
            thousandths += step;
        }
    }
    let sign = if places == 0 { '+' } else { '-' };
    format!("{}.{:03}E{sign}{places:02}", thousandths / 1_000, thousandths % 1_000)
}

fn line(chain: &Chain, v: u32) -> String {
    let entries: String = balance(chain, v).into_iter().map(|grains| format!(" {}", entry(grains))).collect();
    format!("{v}{entries}\n")
}

/// The table's text: checks 3, 9 to 18, 20.
pub fn text(rates: &[u32], book: &[u8]) -> Result<String, u32> {
    if rates.iter().any(|v| *v > 100_000) {
        return Err(3);
    }
    let chain = read(book)?;
    if rates.is_empty() || rates.len() > 200 {
        return Err(20);
    }
    Ok(rates.iter().map(|v| line(&chain, *v)).collect())
}

/// The table call: the same, then check 21.
pub fn table(rates: &[u32], book: &[u8], out: &mut [u8]) -> Result<usize, u32> {
    let text = text(rates, book)?;
    out.get_mut(..text.len()).ok_or(21u32)?.copy_from_slice(text.as_bytes());
    Ok(text.len())
}
