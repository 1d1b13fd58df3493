//! The factor call, rewritten from document 01 with 128-bit numbers.

pub const GRAINS: u128 = 1 << 40;
pub const LN2_HOURS: u128 = 249_532_985_160_000;

pub struct Member {
    pub half_life: u64,
    pub numbers: [u32; 5],
    pub first: usize,
}

pub struct Feed {
    pub share: u32,
    pub from: usize,
    pub next: usize,
}

/// A chain book's parts, with the feeds of each member in the order of the walk.
pub struct Chain {
    pub divisor: u16,
    pub members: Vec<Member>,
    pub feeds: Vec<Feed>,
    pub fed_by: Vec<Vec<usize>>,
}

fn number(bytes: &[u8]) -> u64 {
    bytes.iter().rev().fold(0, |sum, byte| sum << 8 | u64::from(*byte))
}

/// Grounds 9 to 14.
fn parts(book: &[u8]) -> Result<Chain, u32> {
    if book.len() < 8 {
        return Err(9);
    }
    let (n, m) = (book[0] as usize, book[1] as usize);
    if n == 0 || n > 16 || m > 64 {
        return Err(10);
    }
    if book.len() != 8 + 32 * n + 8 * m {
        return Err(11);
    }
    let divisor = number(&book[2..4]) as u16;
    let member_bytes: Vec<&[u8]> = book[8..8 + 32 * n].chunks(32).collect();
    let feed_bytes: Vec<&[u8]> = book[8 + 32 * n..].chunks(8).collect();
    let zero = |bytes: &[u8]| bytes.iter().all(|byte| *byte == 0);
    let zeros = zero(&book[4..8]) && member_bytes.iter().all(|b| zero(&b[29..])) && feed_bytes.iter().all(|b| zero(&b[6..]));
    if divisor == 0 || !zeros {
        return Err(12);
    }
    let members: Vec<Member> = member_bytes.iter().map(|bytes| member(bytes)).collect();
    let feeds: Vec<Feed> = feed_bytes.iter().map(|bytes| feed(bytes)).collect();
    for (i, member) in members.iter().enumerate() {
        let longest = if i == 0 { 1_000_000_000_000_000 } else { 60_000_000_000_000 };
        if member.half_life == 0 || member.half_life > longest || member.numbers.iter().any(|x| *x > 4_000_000_000) {
            return Err(13);
        }
    }
    let bad_feed = |f: &Feed| f.share == 0 || f.share > 100_000 || f.from >= n || f.next > m;
    if feeds.iter().any(bad_feed) || members.iter().any(|member| member.first > m) {
        return Err(14);
    }
    Ok(Chain { divisor, members, feeds, fed_by: Vec::new() })
}

fn member(bytes: &[u8]) -> Member {
    let which = |k: usize| number(&bytes[8 + 4 * k..12 + 4 * k]) as u32;
    Member {
        half_life: number(&bytes[..8]),
        numbers: [which(0), which(1), which(2), which(3), which(4)],
        first: bytes[28] as usize,
    }
}

fn feed(bytes: &[u8]) -> Feed {
    Feed { share: number(&bytes[..4]) as u32, from: bytes[4] as usize, next: bytes[5] as usize }
}

/// Ground 15: the feeds of each member, every feed once in all.
fn walk(chain: &Chain) -> Result<Vec<Vec<usize>>, u32> {
    let mut seen = vec![false; chain.feeds.len()];
    let mut lists = Vec::new();
    for member in &chain.members {
        let mut list = Vec::new();
        let mut at = member.first;
        while at != 0 {
            if std::mem::replace(&mut seen[at - 1], true) {
                return Err(15);
            }
            list.push(at - 1);
            at = chain.feeds[at - 1].next;
        }
        lists.push(list);
    }
    if seen.contains(&false) {
        return Err(15);
    }
    Ok(lists)
}

/// An accepted book's chain, or the number of the first ground from 9 to 18.
pub fn read(book: &[u8]) -> Result<Chain, u32> {
    let mut chain = parts(book)?;
    chain.fed_by = walk(&chain)?;
    if chain.fed_by.iter().enumerate().any(|(i, list)| (i == 0) != list.is_empty()) {
        return Err(16);
    }
    if chain.fed_by.iter().enumerate().any(|(i, list)| list.iter().any(|j| chain.feeds[*j].from >= i)) {
        return Err(17);
    }
    let mut out = [0; 16];
    for feed in &chain.feeds {
        out[feed.from] += u64::from(feed.share);
    }
    if out.iter().any(|sum| *sum > 100_000) {
        return Err(18);
    }
    Ok(chain)
}

/// Every member's factor at rate v, in grains, into the first places of a list.
pub fn fill(chain: &Chain, v: u32, factors: &mut [u64]) {
    factors[0] = GRAINS as u64;
    for (i, (member, list)) in chain.members.iter().zip(&chain.fed_by).enumerate().skip(1) {
        let inflow: u128 = list.iter().map(|j| &chain.feeds[*j]).map(|f| u128::from(f.share) * u128::from(factors[f.from])).sum();
        let decay = LN2_HOURS + u128::from(v) * u128::from(member.half_life);
        factors[i] = (inflow / 100_000 * LN2_HOURS / decay) as u64;
    }
}

/// The same in a list of their own.
pub fn balance(chain: &Chain, v: u32) -> Vec<u64> {
    let mut factors = vec![0; chain.members.len()];
    fill(chain, v, &mut factors);
    factors
}

/// The factor call: checks 3, 9 to 19.
pub fn factors(v: u32, book: &[u8], out: &mut [u64]) -> Result<usize, u32> {
    if v > 100_000 {
        return Err(3);
    }
    let chain = read(book)?;
    let n = chain.members.len();
    if out.len() < n {
        return Err(19);
    }
    out[..n].copy_from_slice(&balance(&chain, v));
    Ok(n)
}
