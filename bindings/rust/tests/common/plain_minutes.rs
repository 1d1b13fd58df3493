//! The factors after periods, rewritten from R-5 of document 02 with 128-bit numbers. The minutes run over plain arrays and
//! allocate nothing, so that their time is a plain program's.
use super::plain::{read, Chain, GRAINS, LN2_HOURS};

const MOST_MEMBERS: usize = 16;
const MOST_FEEDS: usize = 64;

/// A feed's share and the member that it comes from.
#[derive(Clone, Copy)]
struct Feed {
    share: u64,
    from: usize,
}

/// A chain in plain arrays, with the feeds in the order of the members that they feed: member i's end before `ends[i]`, where those
/// of the next begin.
struct Flat {
    n: usize,
    half_lives: [u64; MOST_MEMBERS],
    ends: [usize; MOST_MEMBERS],
    feeds: [Feed; MOST_FEEDS],
}

fn flat(chain: &Chain) -> Flat {
    let no_feed = Feed { share: 0, from: 0 };
    let n = chain.members.len();
    let mut flat = Flat { n, half_lives: [0; MOST_MEMBERS], ends: [0; MOST_MEMBERS], feeds: [no_feed; MOST_FEEDS] };
    let mut end = 0;
    for (i, list) in chain.fed_by.iter().enumerate() {
        for feed in list.iter().map(|j| &chain.feeds[*j]) {
            flat.feeds[end] = Feed { share: u64::from(feed.share), from: feed.from };
            end += 1;
        }
        flat.ends[i] = end;
        flat.half_lives[i] = chain.members[i].half_life;
    }
    flat
}

/// So many minutes at rate v. In each, in member order, F is formed from this minute's factors.
fn pass(flat: &Flat, v: u32, minutes: u32, factors: &mut [u64; MOST_MEMBERS]) {
    let kept = flat.half_lives.map(|half_life| 6_000 * u128::from(half_life));
    let whole = flat.half_lives.map(|half_life| LN2_HOURS + (6_000 + u128::from(v)) * u128::from(half_life));
    for _ in 0..minutes {
        for i in 1..flat.n {
            let feeds = &flat.feeds[flat.ends[i - 1]..flat.ends[i]];
            let inflow: u128 = feeds.iter().map(|feed| u128::from(feed.share) * u128::from(factors[feed.from])).sum();
            factors[i] = ((kept[i] * u128::from(factors[i]) + LN2_HOURS * (inflow / 100_000)) / whole[i]) as u64;
        }
    }
}

/// Check 3, of every rate, an unpaired last number included; then check 22.
fn check(periods: &[u32]) -> Result<(), u32> {
    if periods.iter().step_by(2).any(|v| *v > 100_000) {
        return Err(3);
    }
    let count_fits = periods.len() % 2 == 0 && (1..=32).contains(&(periods.len() / 2));
    let lengths_fit = periods.iter().skip(1).step_by(2).all(|minutes| (1..=1_440).contains(minutes));
    if count_fits && lengths_fit {
        Ok(())
    } else {
        Err(22)
    }
}

/// The call: checks 3, 22, 9 to 19.
pub fn factors_after(periods: &[u32], book: &[u8], out: &mut [u64]) -> Result<usize, u32> {
    check(periods)?;
    let chain = read(book)?;
    let n = chain.members.len();
    if out.len() < n {
        return Err(19);
    }
    let flat = flat(&chain);
    let mut factors = [0; MOST_MEMBERS];
    factors[0] = GRAINS as u64;
    for period in periods.chunks(2) {
        pass(&flat, period[0], period[1], &mut factors);
    }
    out[..n].copy_from_slice(&factors[..n]);
    Ok(n)
}

/// For each member a number of grains that no whole number up to its exact steady factor exceeds. Document 01's formula is worked
/// out in parts, 2^24 to a grain, and rounded up at each step. It grows with the factors in it, so what comes out is at least the
/// exact factor, and is over it by less than 2i parts for member i. A whole number of grains up to the exact factor is then at most
/// this, rounded down to grains. The products stay below 2^113, since no exact factor is over 1.
pub fn steady_at_most(book: &[u8], v: u32) -> Vec<u64> {
    let chain = read(book).expect("a good book");
    let mut parts = vec![GRAINS << 24];
    for (member, list) in chain.members.iter().zip(&chain.fed_by).skip(1) {
        let inflow: u128 = list.iter().map(|j| &chain.feeds[*j]).map(|f| u128::from(f.share) * parts[f.from]).sum();
        let whole = LN2_HOURS + u128::from(v) * u128::from(member.half_life);
        parts.push((inflow.div_ceil(100_000) * LN2_HOURS).div_ceil(whole));
    }
    parts.into_iter().map(|parts| (parts >> 24) as u64).collect()
}
