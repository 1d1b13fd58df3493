//! The recorded jobs, the lines that `fan` writes, and runs at many rates; docs/src/recorded.py says how the two files are written.
use super::runs::Run;

/// The kinds of the cases that are jobs: answered by a report, by a lowest rate, or by both with a second set of coefficients.
pub const REPORT: u8 = 0;
pub const LOWEST: u8 = 1;
const PARTNER: u8 = 5;
const MARKS: u8 = 6;
const RATES: u8 = 7;

fn path(file: &str) -> String {
    format!("{}/../../crates/recorded/{file}", env!("CARGO_MANIFEST_DIR"))
}

/// Every recorded body of a kind, which but for the last three kinds is a job.
pub fn jobs(kind: u8) -> Vec<Vec<u8>> {
    let bytes = std::fs::read(path("stdin")).expect("the recorded cases");
    let (mut jobs, mut rest) = (Vec::new(), &bytes[..]);
    while let [this, a, b, c, d, after @ ..] = rest {
        let (body, others) = after.split_at(u32::from_le_bytes([*a, *b, *c, *d]) as usize);
        if *this == kind {
            jobs.push(body.to_vec());
        }
        rest = others;
    }
    assert!(!jobs.is_empty() && rest.is_empty(), "whole records, some of kind {kind}");
    jobs
}

/// Every recorded second set, with its job.
pub fn second_sets() -> Vec<(Vec<u8>, Vec<u8>)> {
    jobs(PARTNER).iter().map(|body| parted(body)).collect()
}

/// Every recorded table from elsewhere, with its book.
pub fn tables() -> Vec<(Vec<u8>, Vec<u8>)> {
    jobs(MARKS).iter().map(|body| parted(body)).collect()
}

/// The first of two parts is as long as the body says, or as what is there.
fn parted(body: &[u8]) -> (Vec<u8>, Vec<u8>) {
    let (length, rest) = body.split_first_chunk().expect("a length");
    let (first, second) = rest.split_at(rest.len().min(u32::from_le_bytes(*length) as usize));
    (first.to_vec(), second.to_vec())
}

/// What a recorded run at many rates is lent. The body is four numbers of two bytes each, the last of which says how many rates follow
/// them, the rates and the book. Each place of both lists holds 7.
fn run_of(body: &[u8]) -> Run {
    let (head, rest) = body.split_first_chunk::<8>().expect("four numbers");
    let [width, answers, rows, count] = [0, 2, 4, 6].map(|at| usize::from(u16::from_le_bytes([head[at], head[at + 1]])));
    let (rates, book) = rest.split_at(4 * count);
    let rate = |bytes: &[u8]| u32::from_le_bytes(bytes.try_into().expect("four bytes"));
    let rates = rates.chunks(4).map(rate).collect();
    Run { rates, book: book.to_vec(), width, answers: vec![7; answers], rows: vec![7; rows] }
}

/// Every recorded run, with its line. No other answer has a line that begins so.
pub fn runs() -> Vec<(Run, String)> {
    let text = std::fs::read_to_string(path("stdout")).expect("the recorded answers");
    let lines: Vec<&str> = text.lines().filter(|line| line.starts_with("run ")).collect();
    let bodies = jobs(RATES);
    assert_eq!(bodies.len(), lines.len(), "a line for each run");
    bodies.iter().map(|body| run_of(body)).zip(lines.into_iter().map(str::to_owned)).collect()
}

/// The recorded lines of the lowest rates. They follow the reports, each of which ends with its refusal or its working
/// levels.
pub fn lowest_lines() -> Vec<String> {
    let text = std::fs::read_to_string(path("stdout")).expect("the recorded answers");
    let mut lines = text.lines();
    for _ in jobs(REPORT) {
        let last = lines.find(|line| line.starts_with("refused ") || line.starts_with("working "));
        last.expect("a whole report");
    }
    lines.take(jobs(LOWEST).len()).map(str::to_owned).collect()
}
