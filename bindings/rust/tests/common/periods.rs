//! Random lists of periods, good and damaged. A list without the last minutes cannot be made of pairs; those are tried from Python.
use super::books::any_rate;
use super::random::Random;

/// Mostly short ones, at the edges more often than by chance.
fn any_minutes(random: &mut Random) -> u32 {
    match random.within(1, 40) {
        1 => 1_440,
        2 => random.within(1, 1_440) as u32,
        3..=8 => 1,
        _ => random.of_any_size(40) as u32,
    }
}

/// So many periods within the limits.
pub fn periods_of(random: &mut Random, count: u64) -> Vec<(u32, u32)> {
    (0..count).map(|_| (any_rate(random).min(100_000), any_minutes(random))).collect()
}

/// Rate and minutes in turn, as the rewrite takes them.
pub fn in_turn(periods: &[(u32, u32)]) -> Vec<u32> {
    periods.iter().flat_map(|(rate, minutes)| [*rate, *minutes]).collect()
}

/// A number that is out of range for a rate or for minutes, or for both.
fn bad_number(random: &mut Random) -> u32 {
    match random.within(1, 6) {
        1 | 2 => 0,
        3 => 1_441,
        4 => 100_001,
        5 => u32::MAX,
        _ => random.next() as u32,
    }
}

/// One change: another number somewhere, or one period more or less.
fn damage(random: &mut Random, periods: &mut Vec<(u32, u32)>) {
    match random.within(1, 6) {
        1 => periods.push((any_rate(random), any_minutes(random))),
        2 => periods.push((100_001, 1)),
        3 => {
            periods.pop();
        }
        _ if periods.is_empty() => {}
        _ => {
            let at = random.within(0, periods.len() as u64 - 1) as usize;
            let (rate, minutes) = periods[at];
            let bad = bad_number(random);
            periods[at] = if random.one_in(2) { (bad, minutes) } else { (rate, bad) };
        }
    }
}

/// A list of 0 to 40 periods: mostly few and good ones, now and then with a change or two.
pub fn any_periods(random: &mut Random) -> Vec<(u32, u32)> {
    let count = match random.within(1, 20) {
        1 => 0,
        2 | 3 => random.within(31, 34),
        4 => random.within(0, 40),
        _ => random.within(1, 6),
    };
    let mut periods = periods_of(random, count);
    if random.one_in(5) {
        damage(random, &mut periods);
        if random.one_in(4) {
            damage(random, &mut periods);
        }
    }
    periods
}
