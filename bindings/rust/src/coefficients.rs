//! A second set of coefficients beside the book's, and whose are in use. Whether its bytes are accepted, the library says.

/// The bytes of one member in a second set of coefficients.
pub const COEFFICIENTS_LENGTH: usize = 20;

/// Whose coefficients a job or a lowest rate was worked out with.
#[derive(Clone, Copy, Debug, PartialEq, Eq)]
#[repr(u32)]
pub enum CoefficientSet {
    /// The book's own.
    Book = 1,
    /// Those of the second set that was lent beside the book.
    Second = 2,
}

impl CoefficientSet {
    pub(crate) fn from_number(number: u32) -> CoefficientSet {
        match number {
            1 => CoefficientSet::Book,
            2 => CoefficientSet::Second,
            _ => panic!("the contracts name no set {number}"),
        }
    }
}

/// A member's five numbers in a second set. None has a default, since one that is left out would clear rooms.
///
/// ```
/// use jelmorand::Coefficients;
/// let gas = Coefficients { inhalation_risk: 150, submersion_risk: 10, inhalation_dose: 0, submersion_dose: 0, weight: 0 };
/// let polonium = Coefficients { inhalation_risk: 400, weight: 61_134, ..gas };
/// let second = [gas, polonium].map(|member| member.bytes()).concat(); // in the book's order
/// assert_eq!(second.len(), 2 * jelmorand::COEFFICIENTS_LENGTH);
/// ```
#[derive(Clone, Copy, Debug, PartialEq, Eq)]
pub struct Coefficients {
    /// 10^-17 per pCi.
    pub inhalation_risk: u32,
    /// 10^-17 per year per pCi/m³.
    pub submersion_risk: u32,
    /// 10^-10 mrem per pCi.
    pub inhalation_dose: u32,
    /// 10^-10 mrem per year per pCi/m³.
    pub submersion_dose: u32,
    /// Alpha energy per decay, in any one unit for the whole set.
    pub weight: u32,
}

impl Coefficients {
    /// The member's bytes. Those of a second set are its members', one after the other in the book's order, the parent gas first.
    pub fn bytes(&self) -> [u8; COEFFICIENTS_LENGTH] {
        let numbers = [self.inhalation_risk, self.submersion_risk, self.inhalation_dose, self.submersion_dose, self.weight];
        let mut bytes = [0; COEFFICIENTS_LENGTH];
        for (place, number) in bytes.chunks_exact_mut(4).zip(numbers) {
            place.copy_from_slice(&number.to_le_bytes());
        }
        bytes
    }
}

/// What the library is lent. To it no bytes are no set. So a set that is lent and has none goes to it as one byte, which is no set of
/// any chain either: it is refused, and only after what is wrong with the job.
pub(crate) fn lent(coefficients: Option<&[u8]>) -> &[u8] {
    match coefficients {
        None => &[],
        Some([]) => &[0],
        Some(bytes) => bytes,
    }
}

#[cfg(test)]
mod tests {
    use super::{lent, CoefficientSet};

    #[test]
    fn nothing_lent_is_no_bytes() {
        assert_eq!(lent(None), []);
        assert_eq!(lent(Some(&[])).len(), 1);
        assert_eq!(lent(Some(&[7; 40])), [7; 40]);
    }

    #[test]
    fn set_has_its_number() {
        for set in [CoefficientSet::Book, CoefficientSet::Second] {
            assert_eq!(CoefficientSet::from_number(set as u32), set);
        }
    }

    #[test]
    #[should_panic(expected = "the contracts name no set 0")]
    fn no_set_has_number_0() {
        CoefficientSet::from_number(0);
    }
}
