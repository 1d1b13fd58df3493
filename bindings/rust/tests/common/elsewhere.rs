//! Random tables as they come from elsewhere: such as the library writes, and with changes of every kind.
use super::books::{any_rate, good_book};
use super::random::Random;

/// What stands in an entry's place now and then: of the form, and not.
const ENTRIES: [&[u8]; 10] = [
    b"0.000E+00",
    b"1.000E+00",
    b"9.999E+00",
    b"1.000E-12",
    b"1.000E-99",
    b"0.500E+00",
    b"0.000E-05",
    b"5.000E-00",
    b"5.000E+05",
    b"5.000e-01",
];

/// What stands for a line's rate now and then: of the form, and not.
const RATES: [&[u8]; 10] =
    [b"0", b"100", b"100000", b"100001", b"4294967396", b"18446744073709551716", b"00", b"0100", b"+100", b""];

/// What stands for a line's end now and then.
const ENDS: [&[u8]; 6] = [b"", b"\r\n", b"\n\r", b" \n", b"\n\n", b"\0\n"];

fn one<T: Copy>(random: &mut Random, list: &[T]) -> T {
    list[random.within(0, list.len() as u64 - 1) as usize]
}

/// A place of the text where there is such a byte.
fn place_of(random: &mut Random, text: &[u8], wanted: impl Fn(&u8) -> bool) -> Option<usize> {
    let places: Vec<usize> = (0..text.len()).filter(|at| wanted(&text[*at])).collect();
    (!places.is_empty()).then(|| one(random, &places))
}

/// Writes over what is there, as far as there is room.
fn put(text: &mut [u8], at: usize, bytes: &[u8]) {
    text[at..].iter_mut().zip(bytes).for_each(|(place, byte)| *place = *byte);
}

fn change_digit(random: &mut Random, text: &mut [u8]) {
    if let Some(at) = place_of(random, text, u8::is_ascii_digit) {
        let near = if random.one_in(2) { text[at] + 1 } else { text[at] - 1 };
        text[at] = if random.one_in(2) { near.clamp(b'0', b'9') } else { b'0' + random.within(0, 9) as u8 };
    }
}

fn change_exponent(random: &mut Random, text: &mut [u8]) {
    if let Some(at) = place_of(random, text, |byte| *byte == b'E') {
        let places = if random.one_in(2) { random.within(0, 14) } else { random.within(0, 99) };
        let sign = if random.one_in(8) { '+' } else { '-' };
        put(text, at, format!("E{sign}{places:02}").as_bytes());
    }
}

fn change_entry(random: &mut Random, text: &mut [u8]) {
    if let Some(at) = place_of(random, text, |byte| *byte == b' ') {
        put(text, at + 1, one(random, &ENTRIES));
    }
}

fn change_space(random: &mut Random, text: &mut Vec<u8>) {
    if let Some(at) = place_of(random, text, |byte| *byte == b' ') {
        let other: [&[u8]; 4] = [b"", b"  ", b"\t", b"\n"];
        text.splice(at..=at, one(random, &other).iter().copied());
    }
}

fn change_end(random: &mut Random, text: &mut Vec<u8>) {
    let last = text.len().checked_sub(1);
    let at = if random.one_in(2) { last } else { place_of(random, text, |byte| *byte == b'\n') };
    if let Some(at) = at {
        text.splice(at..=at, one(random, &ENDS).iter().copied());
    }
}

/// Another rate for a line, a good one or not.
fn change_rate(random: &mut Random, line: &mut Vec<u8>) {
    let rate = if random.one_in(2) { any_rate(random).to_string().into_bytes() } else { one(random, &RATES).to_vec() };
    let end = line.iter().position(|byte| *byte == b' ').unwrap_or(line.len());
    line.splice(..end, rate);
}

fn change_line(random: &mut Random, text: &mut Vec<u8>) {
    let mut lines: Vec<Vec<u8>> = text.split_inclusive(|byte| *byte == b'\n').map(<[u8]>::to_vec).collect();
    if lines.is_empty() {
        return;
    }
    let [at, other] = [0, 1].map(|_| random.within(0, lines.len() as u64 - 1) as usize);
    match random.within(1, 5) {
        1 => lines[at].clear(),
        2 => lines.insert(at, lines[other].clone()),
        3 => lines.swap(at, other),
        _ => change_rate(random, &mut lines[at]),
    }
    *text = lines.concat();
}

fn change_byte(random: &mut Random, text: &mut Vec<u8>) {
    let at = random.within(0, text.len() as u64) as usize;
    let byte = random.next() as u8;
    match random.within(1, 4) {
        1 => text.insert(at, byte),
        2 => text.truncate(at),
        3 => text.extend((0..random.within(1, 12)).map(|_| one(random, b"0123456789 .E+-\n"))),
        _ => put(text, at, &[byte]),
    }
}

/// One change. Two of three leave the form as it is, for the most part.
pub fn change(random: &mut Random, text: &mut Vec<u8>) {
    match random.within(1, 18) {
        1..=6 => change_digit(random, text),
        7..=8 => change_exponent(random, text),
        9..=10 => change_entry(random, text),
        11..=14 => change_line(random, text),
        15 => change_space(random, text),
        16 => change_end(random, text),
        _ => change_byte(random, text),
    }
}

/// The table that the library writes of the book at so many rates; for one that it refuses, of another book.
pub fn printed(random: &mut Random, book: &[u8], count: u64) -> Vec<u8> {
    let rates: Vec<u32> = (0..count).map(|_| any_rate(random).min(100_000)).collect();
    let text = jelmorand::table(&rates, book).or_else(|_| jelmorand::table(&rates, &good_book(random)));
    text.expect("a good book").into_bytes()
}

/// A table with some changes, or none: mostly few lines, at the edges of their number more often than by chance.
pub fn any_table(random: &mut Random, book: &[u8]) -> Vec<u8> {
    let count = if random.one_in(20) { random.within(199, 200) } else { random.within(1, 6) };
    let mut text = printed(random, book, count);
    let changes = match random.within(1, 10) {
        1 => 0,
        2..=7 => 1,
        8..=9 => random.within(2, 4),
        _ => random.within(5, 40),
    };
    (0..changes).for_each(|_| change(random, &mut text));
    text
}

/// A text of over so many bytes: a table with its lines again and again.
pub fn long_table(random: &mut Random, book: &[u8], room: usize) -> Vec<u8> {
    let count = random.within(1, 200);
    let text = printed(random, book, count);
    let length = room + random.of_any_size(2 * room as u64) as usize;
    let mut text: Vec<u8> = text.iter().copied().cycle().take(length).collect();
    if random.one_in(2) {
        change(random, &mut text);
    }
    text
}

/// The entry just above or below, of the same form; zero for zero.
pub fn neighbour(entry: &str, above: bool) -> String {
    let thousandths: u32 = entry[..5].replace('.', "").parse().expect("four digits");
    let places: u32 = entry[7..].parse().expect("two digits");
    let (thousandths, places) = match (thousandths, above) {
        (0, _) => (0, 0),
        (9_999, true) => (1_000, places - 1),
        (1_000, false) => (9_999, places + 1),
        (thousandths, true) => (thousandths + 1, places),
        (thousandths, false) => (thousandths - 1, places),
    };
    let sign = if places == 0 { '+' } else { '-' };
    format!("{}.{:03}E{sign}{places:02}", thousandths / 1_000, thousandths % 1_000)
}
