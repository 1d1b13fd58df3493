//! Periods as the library takes them: rate and minutes in turn.
use crate::MAX_PERIODS;

/// Room for one period more than the most, so that a list that is too long shows as one.
pub struct Flat {
    places: [[u32; 2]; MAX_PERIODS + 1],
    count: usize,
}

impl Flat {
    /// A longer list than there is room for is answered as its first periods with one more, whose rate is the highest of the rest:
    /// the library reads no more of such a list than whether a rate is too high.
    pub fn of(periods: &[(u32, u32)]) -> Flat {
        let mut flat = Flat { places: [[0; 2]; MAX_PERIODS + 1], count: periods.len().min(MAX_PERIODS + 1) };
        for (place, (rate, minutes)) in flat.places.iter_mut().zip(periods) {
            *place = [*rate, *minutes];
        }
        let rest = periods.iter().skip(MAX_PERIODS).map(|period| period.0).max();
        flat.places[MAX_PERIODS][0] = rest.unwrap_or(0);
        flat
    }

    pub fn numbers(&self) -> &[u32] {
        self.places[..self.count].as_flattened()
    }
}

#[cfg(test)]
mod tests {
    use super::{Flat, MAX_PERIODS};

    #[test]
    fn rate_and_minutes_are_in_turn() {
        assert_eq!(Flat::of(&[]).numbers(), []);
        assert_eq!(Flat::of(&[(0, 480), (400, 60)]).numbers(), [0, 480, 400, 60]);
        let most: Vec<(u32, u32)> = (0..MAX_PERIODS as u32).map(|i| (i, i + 1)).collect();
        assert_eq!(Flat::of(&most).numbers(), most.iter().flat_map(|(rate, minutes)| [*rate, *minutes]).collect::<Vec<u32>>());
    }

    #[test]
    fn highest_rate_of_too_many_is_kept() {
        for at in MAX_PERIODS..MAX_PERIODS + 9 {
            let mut periods = [(1, 1); MAX_PERIODS + 9];
            periods[at].0 = 100_001;
            let flat = Flat::of(&periods);
            assert_eq!((flat.numbers().len(), flat.numbers()[2 * MAX_PERIODS]), (2 * MAX_PERIODS + 2, 100_001));
        }
    }
}
