//! Random chain books and jobs, good and damaged.
use super::random::Random;

/// A good book of n members and m feeds; m is 0 for the parent alone, and otherwise at least n - 1.
pub fn book_of(random: &mut Random, n: usize, m: usize) -> Vec<u8> {
    let mut book = vec![n as u8, m as u8];
    book.extend((random.within(1, 65_535) as u16).to_le_bytes());
    book.extend([0; 4]);
    let fed = fed_members(random, n, m);
    let from: Vec<usize> = fed.iter().map(|member| random.within(0, *member as u64 - 1) as usize).collect();
    let mut first = vec![0; n];
    let mut next = vec![0; m];
    for j in 0..m {
        next[j] = first[fed[j]];
        first[fed[j]] = j as u8 + 1;
    }
    for (i, first) in first.into_iter().enumerate() {
        let longest = if i == 0 { 1_000_000_000_000_000 } else { 60_000_000_000_000 };
        book.extend(random.of_any_size(longest).to_le_bytes());
        for _ in 0..5 {
            let number = if random.one_in(4) { 0 } else { random.of_any_size(4_000_000_000) };
            book.extend((number as u32).to_le_bytes());
        }
        book.extend([first, 0, 0, 0]);
    }
    for (j, share) in shares(random, &from).into_iter().enumerate() {
        book.extend(share.to_le_bytes());
        book.extend([from[j] as u8, next[j], 0, 0]);
    }
    book
}

/// Which member each feed feeds: each later one at least once, in any order.
fn fed_members(random: &mut Random, n: usize, m: usize) -> Vec<usize> {
    let any = |random: &mut Random| random.within(1, n as u64 - 1) as usize;
    let mut fed: Vec<usize> = (0..m).map(|j| if j + 1 < n { j + 1 } else { any(random) }).collect();
    for j in (1..m).rev() {
        fed.swap(j, random.within(0, j as u64) as usize);
    }
    fed
}

/// A share for each feed; those out of one member add up to 100,000 or, half the time, to less.
fn shares(random: &mut Random, from: &[usize]) -> Vec<u32> {
    let mut left = [100_000u64; 16];
    let mut others = [0u64; 16];
    for member in from {
        others[*member] += 1;
    }
    let mut share = |member: &usize| {
        others[*member] -= 1;
        let most = left[*member] - others[*member];
        let whole = others[*member] == 0 && random.one_in(2);
        let given = if whole { most } else { random.within(1, most) };
        left[*member] -= given;
        given as u32
    };
    from.iter().map(&mut share).collect()
}

pub fn good_book(random: &mut Random) -> Vec<u8> {
    let n = random.within(1, 16) as usize;
    let m = if n == 1 { 0 } else { random.within(n as u64 - 1, 64) as usize };
    book_of(random, n, m)
}

fn put(book: &mut [u8], at: usize, bytes: &[u8]) {
    if at + bytes.len() <= book.len() {
        book[at..at + bytes.len()].copy_from_slice(bytes);
    }
}

/// One change of a book, aimed at one of the grounds or at nothing in particular. The book may be damaged already, so its counts
/// need not be those of its bytes; what has lost its counts or says that it has no members stays as it is.
pub fn damage(random: &mut Random, book: &mut Vec<u8>) {
    if book.len() < 2 || book[0] == 0 {
        return;
    }
    let (n, m) = (u64::from(book[0]), u64::from(book[1]));
    let member = 8 + 32 * random.within(0, n - 1) as usize;
    let feed = (8 + 32 * n + 8 * random.within(0, m.max(1) - 1)) as usize;
    let byte = [random.next() as u8];
    match random.within(1, 14) {
        1 => book.truncate(random.within(0, 7) as usize),
        2 => book[random.within(0, 1) as usize] = byte[0],
        3 => book.push(0),
        4 => book.truncate(book.len() - 1),
        5 => put(book, 2, &[0, 0]),
        6 => put(book, [4, member + 29, feed + 6][random.within(0, 2) as usize], &byte),
        7 => put(book, member, &random.of_any_size(2_000_000_000_000_000).to_le_bytes()),
        8 => put(book, member + 8 + 4 * random.within(0, 4) as usize, &(random.next() as u32).to_le_bytes()),
        9 => put(book, feed, &(random.within(0, 110_000) as u32).to_le_bytes()),
        10 => put(book, feed + 4, &[random.within(0, n) as u8]),
        11 => put(book, feed + 5, &[random.within(0, m + 1) as u8]),
        12 => put(book, member + 28, &[random.within(0, m + 1) as u8]),
        13 => unfeed_or_feed_the_parent(random, book),
        _ => {
            let at = random.within(0, book.len() as u64 - 1) as usize;
            book[at] = byte[0];
        }
    }
}

/// Gives the feeds of one later member to the parent, or to a member before it in their stead.
fn unfeed_or_feed_the_parent(random: &mut Random, book: &mut [u8]) {
    let n = u64::from(book[0]);
    if n < 2 {
        return;
    }
    let first = 8 + 28;
    let later = first + 32 * random.within(1, n - 1) as usize;
    if later < book.len() {
        book.swap(first, later);
    }
}

/// A good book, or one with a change or two.
pub fn any_book(random: &mut Random) -> Vec<u8> {
    let mut book = good_book(random);
    if random.one_in(2) {
        damage(random, &mut book);
        if random.one_in(8) {
            damage(random, &mut book);
        }
    }
    book
}

/// A rate: mostly good, at the edges more often than by chance.
pub fn any_rate(random: &mut Random) -> u32 {
    match random.within(1, 20) {
        1 => 0,
        2 => 100_000,
        3 => 100_001,
        4 => random.next() as u32,
        _ => random.of_any_size(100_000) as u32,
    }
}

/// A reading's part: any size within reach, now and then any bits.
fn any_part(random: &mut Random) -> u64 {
    match random.within(1, 40) {
        1 => random.next(),
        2 => (-0.0f64).to_bits(),
        3 => f64::INFINITY.to_bits(),
        4 => random.within(0, 1 << 52),
        5 => (random.of_any_size(4_000_000_000_000) as f64).to_bits(),
        6..=12 => 0,
        _ => (random.of_any_size(100_000_000) as f64 / random.of_any_size(100_000_000) as f64).to_bits(),
    }
}

/// A job's 48 bytes, mostly good, and a book.
pub fn any_job(random: &mut Random) -> Vec<u8> {
    let mut job = any_rate(random).min(if random.one_in(10) { u32::MAX } else { 100_000 }).to_le_bytes().to_vec();
    let medium = random.within(0, 2);
    job.extend([random.within(0, 1) as u8, medium as u8, random.within(0, 2) as u8, 0]);
    let target = if random.one_in(20) { random.next() as u32 } else { random.of_any_size(1_000_000_000) as u32 };
    job.extend(target.to_le_bytes());
    let attenuation = if medium == 0 { 1_000_000 } else { random.within(0, 1_000_000) as u32 };
    job.extend(attenuation.to_le_bytes());
    job.extend(any_part(random).to_le_bytes());
    job.extend(any_part(random).to_le_bytes());
    for _ in 0..2 {
        for most in [366, 100, 96, 100] {
            job.extend((random.within(0, most) as u16).to_le_bytes());
        }
    }
    if random.one_in(8) {
        let at = random.within(0, 47) as usize;
        job[at] = random.next() as u8;
    }
    job.extend(if random.one_in(4) { any_book(random) } else { good_book(random) });
    if random.one_in(30) {
        job.truncate(random.within(0, 60) as usize);
    }
    job
}
