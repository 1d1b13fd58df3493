//! The bytes of a chain book, from its members and feeds. Whether they are accepted, the library says.
use crate::Coefficients;

/// A member of a chain. No coefficient has a default, since one that is left out would clear rooms.
#[derive(Clone, Copy, Debug, PartialEq, Eq)]
pub struct Member {
    /// Nanoseconds.
    pub half_life: u64,
    /// 10^-17 per pCi.
    pub inhalation_risk: u32,
    /// 10^-17 per year per pCi/m³.
    pub submersion_risk: u32,
    /// 10^-10 mrem per pCi.
    pub inhalation_dose: u32,
    /// 10^-10 mrem per year per pCi/m³.
    pub submersion_dose: u32,
    /// Alpha energy per decay, in any one unit for the whole book.
    pub weight: u32,
}

impl Member {
    /// All but the half-life, as a second set has it.
    pub fn coefficients(&self) -> Coefficients {
        let Member { inhalation_risk, submersion_risk, inhalation_dose, submersion_dose, weight, .. } = *self;
        Coefficients { inhalation_risk, submersion_risk, inhalation_dose, submersion_dose, weight }
    }
}

#[derive(Clone, Debug)]
struct Feed {
    share: u32,
    from: usize,
    into: usize,
}

/// A chain book that is put together.
///
/// ```
/// use jelmorand::{Book, Member};
/// let gas = Member {
///     half_life: 330_350_400_000_000,
///     inhalation_risk: 100,
///     submersion_risk: 10,
///     inhalation_dose: 0,
///     submersion_dose: 0,
///     weight: 0,
/// };
/// let mut book = Book::new(1_000);
/// let radon = book.member(gas);
/// let polonium = book.member(Member { half_life: 186_000_000_000, inhalation_risk: 300, ..gas });
/// book.feed(100_000, radon, polonium);
/// let mut factors = [0; jelmorand::MAX_MEMBERS];
/// assert_eq!(jelmorand::factors(18, &book.bytes(), &mut factors), Ok(2));
/// ```
#[derive(Clone, Debug)]
pub struct Book {
    divisor: u16,
    members: Vec<Member>,
    feeds: Vec<Feed>,
}

impl Book {
    /// A book without members, with its working level divisor in tenths of pCi/L at equilibrium: 1,000 for radon, 75 for thoron, 1,620
    /// for actinon.
    pub fn new(divisor: u16) -> Book {
        Book { divisor, members: Vec::new(), feeds: Vec::new() }
    }

    /// Adds a member after those that are there, the parent gas first, and answers its number.
    pub fn member(&mut self, member: Member) -> usize {
        self.members.push(member);
        self.members.len() - 1
    }

    /// Adds a feed: this share, in hundred-thousandths, of what leaves the one member goes into the other. A member's feeds are taken in
    /// the order in which they are added. With a member that is not in the book its bytes are refused.
    pub fn feed(&mut self, share: u32, from: usize, into: usize) {
        self.feeds.push(Feed { share, from, into });
    }

    /// The book's bytes. A number that its byte cannot hold is written as the largest, and refused as that.
    pub fn bytes(&self) -> Vec<u8> {
        let mut bytes = vec![in_byte(self.members.len()), in_byte(self.feeds.len())];
        bytes.extend(self.divisor.to_le_bytes());
        bytes.extend([0; 4]);
        for (i, member) in self.members.iter().enumerate() {
            bytes.extend(member.half_life.to_le_bytes());
            bytes.extend(member.coefficients().bytes());
            bytes.extend([self.feed_from(0, i), 0, 0, 0]);
        }
        bytes.extend(self.feeds.iter().enumerate().flat_map(|(j, feed)| self.feed_bytes(j, feed)));
        bytes
    }

    fn feed_bytes(&self, at: usize, feed: &Feed) -> [u8; 8] {
        let [a, b, c, d] = feed.share.to_le_bytes();
        [a, b, c, d, in_byte(feed.from), self.feed_from(at + 1, feed.into), 0, 0]
    }

    /// The number, from 1, of the first feed into a member from this place on, or 0.
    fn feed_from(&self, at: usize, into: usize) -> u8 {
        let later = self.feeds.iter().enumerate().skip(at).find(|(_, feed)| feed.into == into);
        later.map_or(0, |(j, _)| in_byte(j + 1))
    }
}

fn in_byte(number: usize) -> u8 {
    u8::try_from(number).unwrap_or(u8::MAX)
}
