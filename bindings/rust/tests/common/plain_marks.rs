//! The marks of a table, rewritten from R-8 of document 02 with 128-bit numbers: both ends of what an entry holds are multiplied
//! out, so that nothing is rounded.
use super::plain::{balance, read, Chain, GRAINS};
use jelmorand::{Marks, Place};

const HIGHEST_RATE: u128 = 100_000;
const MOST_LINES: usize = 200;

/// d.ddd in thousandths of 10^-places.
struct Entry {
    thousandths: u128,
    places: u32,
}

/// A line's rate and its entries.
struct Line {
    rate: u32,
    entries: Vec<Entry>,
}

#[derive(Clone, Copy, PartialEq)]
enum Mark {
    Right,
    Close,
    Wrong,
}

/// One with too many digits is over every limit all the same.
fn number(digits: &[u8]) -> Option<u128> {
    let digit = |sum: u128, byte: &u8| sum.saturating_mul(10).saturating_add(u128::from(*byte - b'0'));
    digits.iter().all(u8::is_ascii_digit).then(|| digits.iter().fold(0, digit))
}

fn rate(word: &[u8]) -> Option<u32> {
    let leading = matches!(word, [] | [b'0', _, ..]);
    let fits = |rate: &u128| !leading && *rate <= HIGHEST_RATE;
    number(word).filter(fits).map(|rate| rate as u32)
}

/// d.dddE-dd with dd from 01, or d.dddE+00; zero with the latter alone.
fn entry(word: &[u8]) -> Option<Entry> {
    let [whole, b'.', tenth, hundredth, thousandth, b'E', sign, ten, one] = *word else {
        return None;
    };
    let thousandths = number(&[whole, tenth, hundredth, thousandth])?;
    let places = number(&[ten, one])? as u32;
    let has_form = match (thousandths, sign) {
        (0, b'+') | (1_000.., b'+') => places == 0,
        (1_000.., b'-') => places > 0,
        _ => false,
    };
    has_form.then_some(Entry { thousandths, places })
}

/// Single spaces part a line's words, so that two have an empty word between them.
fn line(text: &[u8], members: usize) -> Option<Line> {
    let mut words = text.split(|byte| *byte == b' ');
    let rate = rate(words.next()?)?;
    let entries: Vec<Entry> = words.map(entry).collect::<Option<_>>()?;
    (entries.len() == members).then_some(Line { rate, entries })
}

/// Check 24.
fn lines(text: &[u8], members: usize) -> Option<Vec<Line>> {
    let parted: Vec<&[u8]> = text.strip_suffix(b"\n")?.split(|byte| *byte == b'\n').collect();
    if parted.len() > MOST_LINES {
        return None;
    }
    parted.into_iter().map(|text| line(text, members)).collect()
}

/// The mark of an entry, of whose member the exact factor has `low` to `high` grains. Both are taken 2·10^(places + 3) times, which
/// makes half a unit of the entry's last place one G. A product that has no room is more than any entry's end.
fn mark(entry: &Entry, low: u64, high: u64) -> Mark {
    let scale = 10u128.saturating_pow(entry.places + 3);
    let [low, high] = [low, high].map(|grains| scale.saturating_mul(2 * u128::from(grains)));
    let middle = 2 * entry.thousandths * GRAINS;
    // Of zero the lower end is under 0, where no factor is.
    let (first, last) = (middle.saturating_sub(GRAINS), middle + GRAINS);
    if high < first || last < low {
        Mark::Wrong
    } else if first <= low && high <= last {
        Mark::Right
    } else {
        Mark::Close
    }
}

fn marks_of(chain: &Chain, line: &Line) -> Vec<Mark> {
    let high = |i: usize, grains: u64| (grains + 2 * i as u64).min(GRAINS as u64);
    let factors = balance(chain, line.rate).into_iter().enumerate();
    factors.zip(&line.entries).map(|((i, grains), entry)| mark(entry, grains, high(i, grains))).collect()
}

/// The marks call: checks 9 to 18, then 24.
pub fn marks(text: &[u8], book: &[u8]) -> Result<Marks, u32> {
    let chain = read(book)?;
    let lines = lines(text, chain.members.len()).ok_or(24u32)?;
    let marked: Vec<Vec<Mark>> = lines.iter().map(|line| marks_of(&chain, line)).collect();
    let how_many = |mark: Mark| marked.iter().flatten().filter(|other| **other == mark).count();
    let wrong = |marks: &Vec<Mark>| marks.iter().position(|mark| *mark == Mark::Wrong);
    let first = marked.iter().enumerate().find_map(|(at, marks)| Some(Place { line: at + 1, member: wrong(marks)? }));
    Ok(Marks { right: how_many(Mark::Right), close: how_many(Mark::Close), wrong: how_many(Mark::Wrong), first })
}
