//! What a job's report says, as fields.
use crate::calls::answered;
use crate::coefficients::lent;
use crate::library::{self, Figures};
use crate::{CoefficientSet, Refusal, MAX_MEMBERS};
use core::fmt;
use core::ops::Deref;

/// Whether the risk or the yearly dose passes the target.
#[derive(Clone, Copy, Debug, PartialEq, Eq)]
pub enum Verdict {
    /// The exact quantity is at most the target.
    Below,
    /// It is so near the target that the factors, rounded to grains, do not decide.
    Close,
    /// It is more than the target.
    Above,
}

/// Every member's factor in grains of 2^-40 of the parent's activity, the parent first: a list of 1 to 16 numbers.
#[derive(Clone, Copy, PartialEq, Eq)]
pub struct Factors {
    pub(crate) places: [u64; MAX_MEMBERS],
    pub(crate) count: usize,
}

impl Deref for Factors {
    type Target = [u64];

    fn deref(&self) -> &[u64] {
        &self.places[..self.count]
    }
}

impl fmt::Debug for Factors {
    fn fmt(&self, to: &mut fmt::Formatter<'_>) -> fmt::Result {
        (**self).fmt(to)
    }
}

/// The equilibrium factor and the working levels of a chain that has alpha energy.
#[derive(Clone, Copy, Debug, PartialEq, Eq)]
pub struct WorkingLevels {
    /// The equilibrium factor, in millionths.
    pub equilibrium: u64,
    /// Millionths of a working level.
    pub micro: u64,
}

/// What an accepted job's report says.
#[derive(Clone, Copy, Debug, PartialEq, Eq)]
pub struct Report {
    /// Every member's factor.
    pub factors: Factors,
    /// The parent's concentration in indoor air, mBq/m³.
    pub concentration: u64,
    /// The verdict on that concentration.
    pub verdict: Verdict,
    /// The screening level: the highest concentration that is `Below`, mBq/m³, at most 4,000,000,000.
    pub level: u64,
    /// `None` where no later member of the chain has alpha energy without ventilation.
    pub working: Option<WorkingLevels>,
    /// Whose coefficients the verdict, the level and the working levels are of. The factors do not depend on it.
    pub set: CoefficientSet,
}

/// What the report of a whole job says, the job's 48 bytes and its chain book; or why it is refused.
pub fn screen(job: &[u8]) -> Result<Report, Refusal> {
    screen_with(job, None)
}

/// The same with a second set of coefficients in use, where one is lent beside the book: 20 bytes for each of its members, in its order,
/// as `Coefficients` writes them. But for `set` it is then the report of the job whose book has the second set written over its own
/// numbers. A set that is lent and empty is refused as one of a wrong length, so that nobody gets the book's verdict for it.
pub fn screen_with(job: &[u8], coefficients: Option<&[u8]>) -> Result<Report, Refusal> {
    let (mut set, mut figures, mut places) = (0, Figures::default(), [0; MAX_MEMBERS]);
    let count = answered(library::screen(job, lent(coefficients), &mut set, &mut figures, &mut places))?;
    Ok(Report {
        factors: Factors { places, count },
        concentration: figures.concentration,
        verdict: verdict(figures.verdict),
        level: figures.level,
        working: working(&figures),
        set: CoefficientSet::from_number(set),
    })
}

fn verdict(number: u64) -> Verdict {
    match number {
        1 => Verdict::Below,
        2 => Verdict::Close,
        3 => Verdict::Above,
        _ => panic!("the contracts name no verdict {number}"),
    }
}

fn working(figures: &Figures) -> Option<WorkingLevels> {
    let Figures { equilibrium, working, .. } = *figures;
    (equilibrium != u64::MAX).then_some(WorkingLevels { equilibrium, micro: working })
}
