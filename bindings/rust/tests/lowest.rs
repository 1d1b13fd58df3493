//! The lowest rate against the recorded answers, against the plain rewrite on random jobs, and against what R-6 of document 02
//! promises.
mod common;

use common::books::any_job;
use common::edge_jobs::{edge_job, with_rate, with_target};
use common::fan_jobs::fan_job;
use common::plain_lowest::{self, HIGHEST, ONE_BY_ONE};
use common::random::Random;
use common::recorded;
use common::texts::rate_line;

const JOBS: usize = 14_000;
const EVERY_RATE_JOBS: usize = 150;
const PROMISES: usize = 4_000;

fn answer(job: &[u8]) -> Result<Option<u32>, u32> {
    jelmorand::lowest_rate(job).map_err(|refusal| refusal.number())
}

/// A job with few members whose target is the least for some rate, or one less.
fn any_fan_job(random: &mut Random) -> Vec<u8> {
    let n = random.within(2, 6) as usize;
    let (m, v) = (random.within(n as u64 - 1, 12) as usize, random.of_any_size(100_000) as u32);
    let job = fan_job(random, n, m, v);
    let target = u32::from_le_bytes([job[8], job[9], job[10], job[11]]);
    with_target(&job, target.saturating_sub(random.within(0, 1) as u32))
}

/// Any job, good or damaged, with its target at the bound more often than by chance.
fn mixed_job(random: &mut Random) -> Vec<u8> {
    match random.within(1, 4) {
        1 | 2 => any_job(random),
        3 => edge_job(random),
        _ => any_fan_job(random),
    }
}

/// How often each kind of answer came up: 0, one that is tried one by one, a higher one, none, and each refusal.
#[derive(Default)]
struct Met {
    zero: usize,
    low: usize,
    high: usize,
    none: usize,
    refused: [usize; 19],
}

impl Met {
    fn add(&mut self, answer: Result<Option<u32>, u32>) {
        let count = match answer {
            Ok(Some(0)) => &mut self.zero,
            Ok(Some(rate)) if rate <= ONE_BY_ONE => &mut self.low,
            Ok(Some(_)) => &mut self.high,
            Ok(None) => &mut self.none,
            Err(number) => &mut self.refused[number as usize],
        };
        *count += 1;
    }

    fn print(&self, what: &str) {
        let rates = [self.zero, self.low, self.high, self.none];
        println!("{what}: answers 0, to {ONE_BY_ONE}, higher, none {rates:?}, refusals by number {:?}", &self.refused[1..]);
    }

    fn every_rate(&self) -> bool {
        [self.zero, self.low, self.high, self.none].iter().all(|n| *n > 0)
    }

    fn every_answer(&self) -> bool {
        self.every_rate() && self.refused[1..].iter().all(|n| *n > 0)
    }
}

#[test]
fn lowest_rates_agree_with_the_rewrite() {
    let mut random = Random::fresh("lowest");
    let mut met = Met::default();
    for count in 0..JOBS {
        let job = mixed_job(&mut random);
        let answer = answer(&job);
        assert_eq!(answer, plain_lowest::lowest_rate(&job), "job {count}: {job:?}");
        met.add(answer);
    }
    met.print(&format!("lowest: {JOBS} jobs"));
    assert!(met.every_answer(), "some answer never came up");
}

/// The rewrite tries every rate in turn, so that nothing is taken from the order of the verdicts.
#[test]
fn lowest_rate_is_the_first_of_all() {
    let mut random = Random::fresh("first of all");
    let mut met = Met::default();
    for count in 0..EVERY_RATE_JOBS {
        let job = mixed_job(&mut random);
        let answer = answer(&job);
        assert_eq!(answer, plain_lowest::first_of_all(&job), "job {count}: {job:?}");
        met.add(answer);
    }
    met.print(&format!("first of all: {EVERY_RATE_JOBS} jobs"));
    assert!(met.every_rate(), "some kind of rate never came up");
}

#[test]
fn recorded_answers_are_given() {
    let (jobs, lines) = (recorded::jobs(recorded::LOWEST), recorded::lowest_lines());
    assert_eq!(jobs.len(), lines.len(), "each recorded job has a line");
    for (count, (job, expected)) in jobs.iter().zip(&lines).enumerate() {
        assert_eq!(rate_line(answer(job)), *expected, "recorded job {count}: {job:?}");
        assert_eq!(answer(job), plain_lowest::lowest_rate(job), "recorded job {count}: {job:?}");
    }
}

/// Whether the report of the job at this rate says 'below'. It must be accepted.
fn is_below(job: &[u8], v: u32) -> bool {
    let text = jelmorand::report(&with_rate(job, v));
    assert!(text.contains("verdict "), "at rate {v}: {text}");
    text.contains("verdict below\n")
}

/// What is promised of an answer: 'below' at it, and neither at the rate before nor at any lower one. A higher rate makes no verdict
/// worse, so 'below' at any higher one too.
fn keeps_the_promise(random: &mut Random, job: &[u8], answer: Option<u32>) -> bool {
    let first = answer.unwrap_or(HIGHEST + 1);
    let lower = |random: &mut Random| random.within(0, u64::from(first) - 1) as u32;
    let none_lower = first == 0 || ![0, first - 1, lower(random), lower(random)].iter().any(|v| is_below(job, *v));
    let higher = |random: &mut Random| random.within(u64::from(first), u64::from(HIGHEST)) as u32;
    none_lower && (answer.is_none() || [first, HIGHEST, higher(random)].iter().all(|v| is_below(job, *v)))
}

/// The answer with other rates of the job's own: the same where they are accepted, and refused otherwise.
fn ignores_its_rate(random: &mut Random, job: &[u8], expected: Option<u32>) -> bool {
    let (good, bad) = (random.within(0, u64::from(HIGHEST)), random.within(u64::from(HIGHEST) + 1, u64::from(u32::MAX)));
    let same = [0, HIGHEST, good as u32].iter().all(|v| answer(&with_rate(job, *v)) == Ok(expected));
    same && [HIGHEST + 1, bad as u32].iter().all(|v| answer(&with_rate(job, *v)) == Err(3))
}

/// Both, or for a refused job that its report says the same refusal.
fn check(random: &mut Random, job: &[u8], what: &str) -> Result<Option<u32>, u32> {
    let answer = answer(job);
    match answer {
        Ok(rate) => {
            assert!(keeps_the_promise(random, job, rate), "{what}: {answer:?} of {job:?}");
            assert!(ignores_its_rate(random, job, rate), "{what}: {answer:?} of {job:?}");
        }
        Err(number) => assert_eq!(jelmorand::report(job), format!("refused {number}\n"), "{what}: {job:?}"),
    }
    answer
}

#[test]
fn promise_is_kept_on_random_jobs() {
    let mut random = Random::fresh("promise");
    let mut met = Met::default();
    for count in 0..PROMISES {
        let job = mixed_job(&mut random);
        met.add(check(&mut random, &job, &format!("job {count}")));
    }
    met.print(&format!("promise: {PROMISES} jobs"));
    assert!(met.every_rate(), "some kind of rate never came up");
}

#[test]
fn promise_is_kept_on_recorded_jobs() {
    let mut random = Random::fresh("recorded promise");
    for kind in [recorded::LOWEST, recorded::REPORT] {
        let mut met = Met::default();
        for (count, job) in recorded::jobs(kind).iter().enumerate() {
            met.add(check(&mut random, job, &format!("kind {kind}, job {count}")));
        }
        met.print(&format!("recorded jobs of kind {kind}"));
    }
}
