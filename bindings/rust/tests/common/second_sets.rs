//! Random second sets of coefficients, good and damaged.
use super::plain_second::own_set;
use super::random::Random;

const MOST: u64 = 4_000_000_000;

/// How many members the job's book says that it has, as far as a book may.
fn members(job: &[u8]) -> usize {
    usize::from(job.get(48).copied().unwrap_or(1)).clamp(1, 16)
}

fn put(set: &mut [u8], at: usize, number: u64) {
    set[4 * at..4 * at + 4].copy_from_slice(&(number as u32).to_le_bytes());
}

/// One more or one less, within the limits.
fn neighbour(random: &mut Random, set: &[u8], at: usize) -> u64 {
    let [a, b, c, d] = [0, 1, 2, 3].map(|k| set[4 * at + k]);
    let number = u64::from(u32::from_le_bytes([a, b, c, d])).min(MOST);
    if random.one_in(2) {
        number.saturating_sub(1)
    } else {
        (number + 1).min(MOST)
    }
}

/// Any numbers within the limits.
pub fn any_numbers(random: &mut Random, members: usize) -> Vec<u8> {
    let mut set = vec![0; 20 * members];
    for at in 0..5 * members {
        put(&mut set, at, if random.one_in(4) { 0 } else { random.of_any_size(MOST) });
    }
    set
}

/// A set for the job's book: the book's own, that with one number changed, all zeros, or any numbers.
pub fn good_set(random: &mut Random, job: &[u8]) -> Vec<u8> {
    let members = members(job);
    let mut set = own_set(job, members);
    let at = random.within(0, 5 * members as u64 - 1) as usize;
    match random.within(1, 10) {
        1 => {}
        2..=4 => {
            let number = neighbour(random, &set, at);
            put(&mut set, at, number);
        }
        5..=7 => put(&mut set, at, random.of_any_size(MOST)),
        8 => set.fill(0),
        _ => return any_numbers(random, members),
    }
    set
}

/// One change, after which the set is not one for the book.
fn damage(random: &mut Random, set: &mut Vec<u8>) {
    match random.within(1, 6) {
        1 => set.push(0),
        2 => set.truncate(set.len() - 1),
        3 => set.truncate(random.within(0, set.len() as u64 - 1) as usize),
        4 => set.extend([0; 20]),
        5 => set.truncate(set.len() - 20),
        _ => {
            let at = random.within(0, set.len() as u64 / 4 - 1) as usize;
            put(set, at, if random.one_in(2) { MOST + 1 } else { random.within(MOST + 1, u64::from(u32::MAX)) });
        }
    }
}

/// A good set, one with a change, or none.
pub fn any_set(random: &mut Random, job: &[u8]) -> Option<Vec<u8>> {
    let mut set = good_set(random, job);
    match random.within(1, 10) {
        1 => return None,
        2 | 3 => damage(random, &mut set),
        _ => {}
    }
    Some(set)
}
