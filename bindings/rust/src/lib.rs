//! Chain balance and screening of radon, thoron and actinon indoors.
//!
//! The functions behind this crate are proved to answer what their contracts in `crates/jelmorand` say, for every input. What is not
//! proved is this crate: that it declares them as they are.
//!
//! A job is 48 bytes, followed by a chain book; `docs/FORMAT.md` has the bytes, and `Job` and `Book` write them. The job here is a gas
//! alone with an inhalation risk of 1,000, at 1 pCi/L of indoor air in a home, against a target of 1,610 billionths. Exposure is in
//! quarter hours per day, 0 to 96; a job written in whole hours, as jobs used to be, must not be passed.
//!
//! ```
//! use jelmorand::{Book, CoefficientSet, Coefficients, Exposure, Job, Kind, Medium, Member, Unit};
//!
//! let radon = Member {
//!     half_life: 330_350_400_000_000,
//!     inhalation_risk: 1_000,
//!     submersion_risk: 0,
//!     inhalation_dose: 0,
//!     submersion_dose: 0,
//!     weight: 0,
//! };
//! let mut gas = Book::new(1_000);
//! gas.member(radon);
//! let home = Job {
//!     rate: 0,
//!     kind: Kind::Risk,
//!     medium: Medium::IndoorAir,
//!     unit: Unit::PciPerL,
//!     target: 1_610,
//!     attenuation: 1_000_000, // none
//!     value: 1.0,
//!     uncertainty: 0.0,
//!     exposure: Exposure::RESIDENTIAL,
//! };
//! let book = gas.bytes();
//! let job = home.with_book(&book);
//!
//! let report = jelmorand::screen(&job)?;
//! assert_eq!(report.verdict, jelmorand::Verdict::Below);
//! assert_eq!((report.concentration, report.level), (37_000, 37_000));
//! assert_eq!(*report.factors, [1_099_511_627_776]);
//! assert_eq!((report.working, report.set), (None, CoefficientSet::Book));
//!
//! // The same with the coefficients of somebody else, which are lent beside the book.
//! let partner = Coefficients { inhalation_risk: 1_001, ..radon.coefficients() };
//! let report = jelmorand::screen_with(&job, Some(&partner.bytes()))?;
//! assert_eq!((report.verdict, report.set), (jelmorand::Verdict::Above, CoefficientSet::Second));
//! assert_eq!(jelmorand::lowest_rate_with(&job, Some(&partner.bytes()))?.rate, None);
//! let no_set = jelmorand::screen_with(&job, Some(&[])).unwrap_err();
//! assert_eq!(no_set, jelmorand::Refusal::SecondSetOutOfRange);
//!
//! // The gas has the same risk at every rate, so either none is too low or, with a target of one billionth less, all are.
//! assert_eq!(jelmorand::lowest_rate(&job)?, Some(0));
//! let stricter = Job { target: 1_609, ..home };
//! assert_eq!(jelmorand::lowest_rate(&stricter.with_book(&book))?, None);
//!
//! let mut factors = [0; jelmorand::MAX_MEMBERS];
//! assert_eq!(jelmorand::factors(18, &book, &mut factors)?, 1);
//! let refused = jelmorand::factors(100_001, &book, &mut factors).unwrap_err();
//! assert_eq!(refused.to_string(), "the rate exceeds 100,000");
//!
//! // The same at many rates, of which one is too high.
//! let rows = jelmorand::factors_at_rates(&[18, 100_001, 100], &book);
//! assert_eq!(*rows[0]?, [1_099_511_627_776]);
//! assert_eq!(rows[1], Err(jelmorand::Refusal::RateTooHigh));
//!
//! // Shut for eight hours, then aired for one.
//! assert_eq!(jelmorand::factors_after(&[(0, 480), (200, 60)], &book, &mut factors)?, 1);
//!
//! let table = jelmorand::table(&[18, 100], &book)?;
//! assert_eq!(table, "18 1.000E+00\n100 1.000E+00\n");
//!
//! // A table from elsewhere, whose second line has less of the gas than there is.
//! let marks = jelmorand::marks(b"18 1.000E+00\n100 9.990E-01\n", &book)?;
//! assert_eq!((marks.right, marks.close, marks.wrong), (1, 0, 1));
//! assert_eq!(marks.first, Some(jelmorand::Place { line: 2, member: 0 }));
//! # Ok::<(), jelmorand::Refusal>(())
//! ```
#![cfg_attr(not(feature = "std"), no_std)]
#![deny(unsafe_code)]
#![warn(missing_docs)]

#[cfg(feature = "std")]
mod book;
mod calls;
mod coefficients;
mod job;
mod library;
mod marks;
mod periods;
mod rates;
mod refusal;
mod report;
mod version;

#[cfg(feature = "std")]
pub use book::{Book, Member};
pub use calls::{answered, factors, factors_after, lowest_rate, lowest_rate_with, report_into, table_into, LowestRate};
#[cfg(feature = "std")]
pub use calls::{report, table};
pub use coefficients::{CoefficientSet, Coefficients, COEFFICIENTS_LENGTH};
pub use job::{Exposure, Group, Job, Kind, Medium, Unit, JOB_LENGTH};
pub use marks::{marks, Marks, Place};
#[cfg(feature = "std")]
pub use rates::factors_at_rates;
pub use rates::factors_at_rates_into;
pub use refusal::Refusal;
pub use report::{screen, screen_with, Factors, Report, Verdict, WorkingLevels};
pub use version::{library_version, VERSION};

/// The most members that a book has, so the most factors that are written.
pub const MAX_MEMBERS: usize = 16;

/// No report has more bytes than this.
pub const REPORT_ROOM: usize = 922;

/// The most rates that a table has.
pub const MAX_RATES: usize = 200;

/// No table has more bytes than this.
pub const TABLE_ROOM: usize = 33_400;

/// The most periods that `factors_after` takes.
pub const MAX_PERIODS: usize = 32;

/// The most minutes that a period has.
pub const MAX_MINUTES: u32 = 1_440;
