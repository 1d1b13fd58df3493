//! Why a call is refused.
use core::error::Error;
use core::fmt;

/// Lists the grounds once: the enum with its documentation, the list of all, and each one's number and sentence.
macro_rules! grounds {
    ($($name:ident = $number:literal, $sentence:literal;)*) => {
        /// Why a call is refused, in checking order save that 22 comes straight after 3, and 23 and 24 straight after 18,
        /// each with its number.
        #[derive(Clone, Copy, Debug, PartialEq, Eq, Hash)]
        #[non_exhaustive]
        pub enum Refusal {
            $(#[doc = concat!($number, ": ", $sentence, ".")] $name,)*
            /// A ground with this number, which a later version of the library has and this one of the package does not know.
            Other(u32),
        }

        impl Refusal {
            /// Every ground that is known, by number.
            pub const ALL: &'static [Refusal] = &[$(Refusal::$name),*];

            /// The ground's number, which a refused report prints.
            pub fn number(self) -> u32 {
                match self {
                    $(Refusal::$name => $number,)*
                    Refusal::Other(number) => number,
                }
            }

            /// The ground with this number.
            pub fn from_number(number: u32) -> Refusal {
                match number {
                    $($number => Refusal::$name,)*
                    _ => Refusal::Other(number),
                }
            }

            /// What is wrong, as the C header says it.
            pub fn sentence(self) -> &'static str {
                match self {
                    $(Refusal::$name => $sentence,)*
                    Refusal::Other(_) => "a ground that this version does not know",
                }
            }
        }
    };
}

grounds! {
    JobTooShort = 1, "the job has fewer than 48 bytes";
    CodeUnknown = 2, "kind, medium or unit is not a listed value, or the job's zero byte is not zero";
    RateTooHigh = 3, "the rate exceeds 100,000";
    TargetTooHigh = 4, "the target exceeds 1,000,000,000";
    AttenuationOutOfRange = 5, "the attenuation exceeds 1,000,000, or is not 1,000,000 for indoor air";
    ExposureOutOfRange = 6, "a group has days over 366, years over 100, quarter hours over 96 or breathing over 100, or both groups have 0 years";
    ReadingUnusable = 7, "value or uncertainty has its sign bit set (minus zero too), is infinite or is not a number";
    ConcentrationTooHigh = 8, "a converted part, their sum or the concentration exceeds 4,000,000,000 mBq/m3";
    BookTooShort = 9, "the book has fewer than 8 bytes";
    CountOutOfRange = 10, "the book does not have 1 to 16 members, or has over 64 feeds";
    BookLengthWrong = 11, "the book is not 8 bytes long with 32 more a member and 8 more a feed";
    DivisorOrZerosWrong = 12, "the working level divisor is 0, or one of the book's zero bytes is not zero";
    MemberOutOfRange = 13, "a member's half-life is 0 or too long, or one of its five numbers exceeds 4,000,000,000";
    FeedOutOfRange = 14, "a share is not 1 to 100,000, a from is not a member, or a first or next is not a feed";
    FeedNotOnce = 15, "a feed comes up twice along the members' feeds, or never";
    FeedsMisplaced = 16, "the parent gas has a feed, or a later member has none";
    FeedNotFromLower = 17, "a feed does not come from a lower member than the one it feeds";
    SharesOutTooHigh = 18, "the shares out of one member add up to over 100,000";
    ListTooShort = 19, "the lent list has fewer places than the book has members";
    RateCountOutOfRange = 20, "the list of rates is empty or has over 200";
    BufferTooShort = 21, "the text is longer than the lent buffer";
    PeriodsOutOfRange = 22, "the list of periods has an odd length, or does not have 1 to 32 periods of 1 to 1,440 minutes each";
    SecondSetOutOfRange = 23, "the second set does not have exactly 20 bytes for each member, or one of its numbers exceeds 4,000,000,000";
    TableNotOfForm = 24, "the table is not 1 to 200 lines of the printed form, each a rate of at most 100,000 and an entry for each member";
}

impl fmt::Display for Refusal {
    fn fmt(&self, to: &mut fmt::Formatter<'_>) -> fmt::Result {
        to.write_str(self.sentence())?;
        match self {
            Refusal::Other(number) => write!(to, ", number {number}"),
            _ => Ok(()),
        }
    }
}

impl Error for Refusal {}
