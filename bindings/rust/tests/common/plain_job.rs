//! A whole job's report, rewritten from document 01 and R-1 of document 02. Sums stay below 2^128 since the concentration is
//! divided out of them.
use super::plain::{balance, read, Chain, GRAINS};
use std::fmt::Write;

const MOST: u128 = 4_000_000_000;

struct Job<'a> {
    bytes: &'a [u8],
}

impl Job<'_> {
    fn number(&self, at: usize, size: usize) -> u64 {
        self.bytes[at..at + size].iter().rev().fold(0, |sum, byte| sum << 8 | u64::from(*byte))
    }

    /// Days, years, quarter hours and breathing of the child group, then of the adult group.
    fn groups(&self) -> [[u128; 4]; 2] {
        [32, 40].map(|at| [0, 2, 4, 6].map(|k| u128::from(self.number(at + k, 2))))
    }

    fn years(&self) -> u128 {
        self.groups().iter().map(|group| group[1]).sum()
    }
}

/// The smallest whole number of mBq/m³ not below a part of the reading; `None` where it exceeds 4,000,000,000.
fn converted(bits: u64, unit: u8) -> Option<u128> {
    let times = [37_000, 37, 1_000][unit as usize];
    if f64::from_bits(bits) > MOST as f64 {
        return None;
    }
    let exponent = bits >> 52;
    let fraction = u128::from(bits & ((1 << 52) - 1));
    let (significand, places) = if exponent == 0 { (fraction, 1074) } else { (fraction + (1 << 52), 1075 - exponent) };
    let product = significand * times;
    let whole = if places > 100 { u128::from(product != 0) } else { product.div_ceil(1 << places) };
    (whole <= MOST).then_some(whole)
}

/// C, or `None` for ground 8.
fn concentration(job: &Job) -> Option<u128> {
    let (medium, unit) = (job.bytes[5], job.bytes[6]);
    let sum = converted(job.number(16, 8), unit)? + converted(job.number(24, 8), unit)?;
    let attenuation = u128::from(job.number(12, 4));
    let air = match medium {
        0 => sum,
        1 => (sum * attenuation).div_ceil(1_000_000),
        _ => (sum * 434 * attenuation).div_ceil(100_000_000),
    };
    (sum <= MOST && air <= MOST).then_some(air)
}

/// Grounds 2 to 7.
fn refused_field(job: &Job) -> Option<u32> {
    let [kind, medium, unit, zero] = [4, 5, 6, 7].map(|at| job.bytes[at]);
    let attenuation = job.number(12, 4);
    let wide = |group: &[u128; 4]| group.iter().zip([366, 100, 96, 100]).any(|(x, most)| *x > most);
    let unusable = |bits: u64| bits >= 0x7FF0_0000_0000_0000;
    let grounds = [
        (2, kind > 1 || medium > 2 || unit > 2 || zero != 0),
        (3, job.number(0, 4) > 100_000),
        (4, job.number(8, 4) > 1_000_000_000),
        (5, attenuation > 1_000_000 || medium == 0 && attenuation != 1_000_000),
        (6, job.groups().iter().any(wide) || job.years() == 0),
        (7, unusable(job.number(16, 8)) || unusable(job.number(24, 8))),
    ];
    grounds.into_iter().find(|ground| ground.1).map(|ground| ground.0)
}

/// The verdict and the screening level.
fn judged(job: &Job, chain: &Chain, factors: &[u64], air: u128) -> (&'static str, u128) {
    let dose = job.bytes[4] == 1;
    let groups = job.groups();
    // Risk counts a group's years; dose its share of the years in hundredths, to the nearest, halves up (R-2 of document 02).
    let share = |ed: u128| 100 * ed / job.years() + u128::from(2 * (100 * ed % job.years()) >= job.years());
    let part = |ed: u128| if dose { share(ed) } else { ed };
    let x: u128 = groups.iter().map(|[ef, ed, et, ira]| ef * part(*ed) * et * ira).sum();
    let y: u128 = groups.iter().map(|[ef, ed, et, _]| ef * part(*ed) * et).sum();
    // ET is in quarter hours, so the bound is four times what it was for hours.
    let target = 4 * u128::from(job.number(8, 4)) * 37 * 8_760 * GRAINS;
    let bound = if dose { target * 100 * 10_000_000 } else { target * 100_000_000 };
    let (mut low, mut high) = (0, 0);
    for (i, member) in chain.members.iter().enumerate() {
        let [h, s] = if dose { [2, 3] } else { [0, 1] }.map(|k| u128::from(member.numbers[k]));
        let weight = 365 * x * h + y * s;
        let factor = u128::from(factors[i]);
        low += weight * factor;
        high += weight * GRAINS.min(factor + 2 * i as u128);
    }
    // air · sum ≤ bound just where sum ≤ bound / air, rounded down.
    let within = |sum: u128| air == 0 || sum <= bound / air;
    let verdict = if within(high) {
        "below"
    } else if within(low) {
        "close"
    } else {
        "above"
    };
    (verdict, bound.checked_div(high).map_or(MOST, |most| most.min(MOST)))
}

/// Fm and the micro working levels, where there are any.
fn working(chain: &Chain, factors: &[u64], air: u128) -> Option<(u128, u128)> {
    let alpha = |factors: &[u64]| -> u128 {
        chain.members.iter().zip(factors).skip(1).map(|(member, f)| u128::from(member.numbers[4]) * u128::from(*f)).sum()
    };
    let equilibrium = (1_000_000 * alpha(factors)).checked_div(alpha(&balance(chain, 0)))?;
    Some((equilibrium, 10 * air * equilibrium / (37_000 * u128::from(chain.divisor))))
}

/// An accepted job, with its concentration and its chain.
pub struct Admitted<'a> {
    job: Job<'a>,
    air: u128,
    chain: Chain,
}

impl Admitted<'_> {
    /// The verdict at rate v, whatever the job's own.
    pub fn verdict_at(&self, v: u32) -> &'static str {
        judged(&self.job, &self.chain, &balance(&self.chain, v), self.air).0
    }
}

/// Checks 1 to 18.
pub fn admitted(bytes: &[u8]) -> Result<Admitted<'_>, u32> {
    if bytes.len() < 48 {
        return Err(1);
    }
    let job = Job { bytes };
    refused_field(&job).map_or(Ok(()), Err)?;
    let air = concentration(&job).ok_or(8u32)?;
    let chain = read(&bytes[48..])?;
    Ok(Admitted { job, air, chain })
}

/// What an accepted job's report says.
pub struct Figures {
    pub factors: Vec<u64>,
    pub air: u128,
    pub verdict: &'static str,
    pub level: u128,
    pub working: Option<(u128, u128)>,
}

/// Checks 1 to 18, then the figures.
pub fn figures(bytes: &[u8]) -> Result<Figures, u32> {
    let Admitted { job, air, chain } = admitted(bytes)?;
    let factors = balance(&chain, job.number(0, 4) as u32);
    let (verdict, level) = judged(&job, &chain, &factors, air);
    let working = working(&chain, &factors, air);
    Ok(Figures { factors, air, verdict, level, working })
}

fn accepted(bytes: &[u8]) -> Result<String, u32> {
    let Figures { factors, air, verdict, level, working } = figures(bytes)?;
    let mut text = String::new();
    for (i, factor) in factors.iter().enumerate() {
        writeln!(text, "factor {i} {factor}").expect("a string takes any text");
    }
    let levels = match working {
        None => "equilibrium none\nworking none\n".to_string(),
        Some((equilibrium, micro)) => format!("equilibrium {equilibrium}\nworking {micro}\n"),
    };
    Ok(text + &format!("concentration {air}\nverdict {verdict}\nlevel {level}\n") + &levels)
}

/// The lines that `screen` writes of a job.
pub fn report(bytes: &[u8]) -> String {
    accepted(bytes).unwrap_or_else(|number| format!("refused {number}\n"))
}
