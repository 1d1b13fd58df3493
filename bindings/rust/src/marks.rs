//! Which entries of a table that comes from elsewhere agree with a chain book.
use crate::calls::answered;
use crate::{library, Refusal};

/// Where an entry stands in a table.
#[derive(Clone, Copy, Debug, PartialEq, Eq)]
pub struct Place {
    /// The line, from 1.
    pub line: usize,
    /// The member, from 0, the parent gas.
    pub member: usize,
}

/// How many of a table's entries have each mark, and where the first wrong one is. The exact factor of member i is somewhere from the
/// grains that `factors` answers to 2i grains above them, and at most the parent's.
#[derive(Clone, Copy, Debug, PartialEq, Eq)]
pub struct Marks {
    /// Entries of which half a unit of the last printed place holds all of that range, so the exact factor.
    pub right: usize,
    /// The others.
    pub close: usize,
    /// Entries of which it holds nothing of that range, so not the exact factor.
    pub wrong: usize,
    /// The first wrong one in reading order; `None` where none is.
    pub first: Option<Place>,
}

/// Marks each entry of a table by a chain book. The table has the form that `table` writes, with 1 to 200 lines and an entry for each
/// member of the book, and nothing else; otherwise, and where one of its rates is over 100,000, it is `Refusal::TableNotOfForm`. What
/// `table` writes of the same book is never wrong.
pub fn marks(text: &[u8], book: &[u8]) -> Result<Marks, Refusal> {
    let mut numbers = [0; 5];
    answered(library::marks(text, book, &mut numbers))?;
    let [right, close, wrong, line, member] = numbers.map(|number| usize::try_from(number).expect("no text has so many entries"));
    let first = (wrong > 0).then_some(Place { line, member });
    Ok(Marks { right, close, wrong, first })
}
