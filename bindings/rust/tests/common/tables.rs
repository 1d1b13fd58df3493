//! Random lists of rates, and books whose factors at one rate are chosen.
use super::books::any_rate;
use super::plain::{GRAINS, LN2_HOURS};
use super::random::Random;

/// A list of 0 to 210 rates: mostly few and good ones, at the edges more often than by chance.
pub fn any_rates(random: &mut Random) -> Vec<u32> {
    let count = match random.within(1, 20) {
        1 => 0,
        2 | 3 => random.within(199, 202),
        4 => random.within(0, 210),
        _ => random.within(1, 12),
    };
    let mut rates: Vec<u32> = (0..count).map(|_| any_rate(random).min(100_000)).collect();
    if count > 0 && random.one_in(10) {
        let at = random.within(0, count - 1) as usize;
        rates[at] = if random.one_in(2) { 100_001 } else { random.within(100_001, u64::from(u32::MAX)) as u32 };
    }
    rates
}

/// A factor next to the middle of two neighbours among what is printed; now and then just there.
fn near_middle(random: &mut Random) -> u64 {
    if random.one_in(10) {
        return (2 * random.within(2, 15) + 1) << 35; // 5, 7 and so on to 31 parts of 32
    }
    let thousandths = match random.within(1, 10) {
        1 => 1_000,
        2 => 9_999,
        _ => random.within(1_000, 9_999),
    };
    let places = random.within(1, 13) as u32;
    let below = u128::from(2 * thousandths + 1) * GRAINS / (2 * 10u128.pow(places + 3));
    below as u64 + random.within(0, 1)
}

/// The share of the member before, and the half-life, that make `wanted` grains of `before` at rate 100, if there is such a pair.
fn share_and_half_life(random: &mut Random, before: u64, wanted: u64) -> Option<(u32, u64)> {
    let (before, more) = (u128::from(before), u128::from(wanted) + 1);
    let least = (more * 100_000).div_ceil(before) as u64;
    let share = random.within(least, (8 * least).min(100_000));
    let inflow = before * u128::from(share) / 100_000;
    // The shortest that brings the factor below wanted + 1; a nanosecond more moves it by less than a grain.
    let half_life = (inflow * LN2_HOURS / more - LN2_HOURS) / 100 + 1;
    (half_life <= 60_000_000_000_000).then_some((share as u32, half_life as u64))
}

/// A book in which each member feeds the next, and the factors that its members have at rate 100.
pub fn chosen_book(random: &mut Random) -> (Vec<u8>, Vec<u64>) {
    chosen_book_under(random, 0)
}

/// The same with each member's factor so many grains lower, times its number.
pub fn chosen_book_under(random: &mut Random, step: u64) -> (Vec<u8>, Vec<u64>) {
    let mut wanted: Vec<u64> = (0..15).map(|_| near_middle(random)).collect();
    wanted.sort_by(|a, b| b.cmp(a));
    let (mut members, mut feeds) = (member(1, 0), Vec::new());
    let mut factors = vec![GRAINS as u64];
    for middle in wanted {
        let before = factors[factors.len() - 1];
        let grains = middle.saturating_sub(step * factors.len() as u64);
        let found = if grains < before { share_and_half_life(random, before, grains) } else { None };
        if let Some((share, half_life)) = found {
            feeds.extend(share.to_le_bytes());
            feeds.extend([factors.len() as u8 - 1, 0, 0, 0]);
            members.extend(member(half_life, factors.len() as u8));
            factors.push(grains);
        }
    }
    let counts = [factors.len() as u8, factors.len() as u8 - 1];
    ([&counts[..], &[1, 0, 0, 0, 0, 0], &members, &feeds].concat(), factors)
}

fn member(half_life: u64, first: u8) -> Vec<u8> {
    [&half_life.to_le_bytes()[..], &[0; 20], &[first, 0, 0, 0]].concat()
}
