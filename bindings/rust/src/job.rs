//! The 48 bytes of a job, from its values. Whether they are accepted, the library says.

/// The bytes of a job before its chain book.
pub const JOB_LENGTH: usize = 48;

/// What is screened.
#[derive(Clone, Copy, Debug, PartialEq, Eq)]
#[repr(u8)]
pub enum Kind {
    /// The risk of the stay.
    Risk = 0,
    /// The yearly dose.
    Dose = 1,
}

/// Where the meter read.
#[derive(Clone, Copy, Debug, PartialEq, Eq)]
#[repr(u8)]
pub enum Medium {
    /// The air of the room.
    IndoorAir = 0,
    /// The gas in the soil.
    SoilGas = 1,
    /// The water in the ground.
    Groundwater = 2,
}

/// The unit of value and uncertainty.
#[derive(Clone, Copy, Debug, PartialEq, Eq)]
#[repr(u8)]
pub enum Unit {
    /// pCi/L.
    PciPerL = 0,
    /// pCi/m³.
    PciPerM3 = 1,
    /// Bq/m³.
    BqPerM3 = 2,
}

/// A group's exposure.
#[derive(Clone, Copy, Debug, PartialEq, Eq)]
pub struct Group {
    /// Days per year.
    pub days: u16,
    /// Years.
    pub years: u16,
    /// Quarter hours per day, not hours.
    pub quarter_hours: u16,
    /// Breathing, m³ per day.
    pub breathing: u16,
}

impl Group {
    const fn of([days, years, quarter_hours, breathing]: [u16; 4]) -> Group {
        Group { days, years, quarter_hours, breathing }
    }

    fn numbers(&self) -> [u16; 4] {
        [self.days, self.years, self.quarter_hours, self.breathing]
    }
}

/// The exposure of both groups.
#[derive(Clone, Copy, Debug, PartialEq, Eq)]
pub struct Exposure {
    /// The child.
    pub child: Group,
    /// The adult.
    pub adult: Group,
}

impl Exposure {
    /// The residential defaults of source 001.
    pub const RESIDENTIAL: Exposure = Exposure { child: Group::of([350, 6, 96, 10]), adult: Group::of([350, 20, 96, 20]) };

    /// The worker defaults of source 001.
    pub const WORKER: Exposure = Exposure { child: Group::of([0; 4]), adult: Group::of([250, 25, 32, 60]) };
}

/// A job without its book. Nothing has a default, since what is left out would clear rooms.
#[derive(Clone, Copy, Debug, PartialEq)]
pub struct Job {
    /// The rate of ventilation, hundredths of an air change per hour.
    pub rate: u32,
    /// What is screened.
    pub kind: Kind,
    /// Where the meter read.
    pub medium: Medium,
    /// The unit of value and uncertainty.
    pub unit: Unit,
    /// Billionths of risk, or thousandths of a mrem per year.
    pub target: u32,
    /// From the medium to the room, in millionths; 1,000,000 for indoor air.
    pub attenuation: u32,
    /// The meter's reading.
    pub value: f64,
    /// The meter's uncertainty.
    pub uncertainty: f64,
    /// Who is in the room, and for how long.
    pub exposure: Exposure,
}

impl Job {
    /// The job's bytes; the chain book's follow them.
    pub fn bytes(&self) -> [u8; JOB_LENGTH] {
        let mut bytes = [0; JOB_LENGTH];
        let mut put = |at: usize, field: &[u8]| bytes[at..at + field.len()].copy_from_slice(field);
        put(0, &self.rate.to_le_bytes());
        put(4, &[self.kind as u8, self.medium as u8, self.unit as u8]);
        put(8, &self.target.to_le_bytes());
        put(12, &self.attenuation.to_le_bytes());
        put(16, &self.value.to_le_bytes());
        put(24, &self.uncertainty.to_le_bytes());
        let groups = [self.exposure.child.numbers(), self.exposure.adult.numbers()];
        for (k, number) in groups.as_flattened().iter().enumerate() {
            put(32 + 2 * k, &number.to_le_bytes());
        }
        bytes
    }

    /// The job's bytes and its book's, as `screen` takes them.
    #[cfg(feature = "std")]
    pub fn with_book(&self, book: &[u8]) -> Vec<u8> {
        [&self.bytes()[..], book].concat()
    }
}
