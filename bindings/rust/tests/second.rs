//! Jobs and lowest rates with a second set of coefficients: against the plain rewrite on random jobs and sets and on the recorded ones,
//! and against what R-7 of document 02 promises.
mod common;

use common::books::{any_job, good_book};
use common::edge_jobs::{edge_job, home_job};
use common::plain_second::{own_set, partner, written_over};
use common::random::Random;
use common::recorded;
use common::second_sets::{any_set, good_set};
use common::texts::{rate_line, text_of};
use jelmorand::{CoefficientSet, LowestRate, Refusal, Report, Verdict};

const JOBS: usize = 8_000;
const PROMISES: usize = 3_000;

/// The lines that `partner` writes. Both calls must refuse alike, and name one set.
fn answer(job: &[u8], set: Option<&[u8]>) -> String {
    let lowest = jelmorand::lowest_rate_with(job, set);
    match jelmorand::screen_with(job, set) {
        Ok(report) => {
            let LowestRate { rate, set } = lowest.expect("a job that is screened");
            assert_eq!(set, report.set, "two sets in use: {job:?}");
            format!("set {}\n{}{}\n", set as u32, text_of(&report), rate_line(Ok(rate)))
        }
        Err(refusal) => {
            assert_eq!(lowest, Err(refusal), "two answers: {job:?}");
            format!("refused {}\n", refusal.number())
        }
    }
}

fn mixed_job(random: &mut Random) -> Vec<u8> {
    if random.one_in(2) {
        edge_job(random)
    } else {
        any_job(random)
    }
}

/// How often each refusal and each set came up, and how often the second set turned the verdict to 'below' and from it.
#[derive(Default)]
struct Met {
    refused: [usize; 24],
    sets: [usize; 2],
    turned: [usize; 2],
}

impl Met {
    fn add(&mut self, job: &[u8], set: Option<&[u8]>) {
        match (jelmorand::screen_with(job, set), jelmorand::screen(job)) {
            (Ok(report), Ok(own)) => {
                let below = report.verdict == Verdict::Below;
                self.sets[report.set as usize - 1] += 1;
                self.turned[usize::from(below)] += usize::from(below != (own.verdict == Verdict::Below));
            }
            (Err(refusal), _) => self.refused[refusal.number() as usize] += 1,
            (report, own) => panic!("{report:?} with a set and {own:?} without, of {job:?}"),
        }
    }

    /// The job's own refusals come up one by one on the recorded jobs.
    fn everything(&self) -> bool {
        self.refused[23..].iter().chain(&self.sets).chain(&self.turned).all(|n| *n > 0)
    }
}

#[test]
fn answers_agree_with_the_rewrite() {
    let mut random = Random::fresh("second");
    let mut met = Met::default();
    for count in 0..JOBS {
        let job = mixed_job(&mut random);
        let set = any_set(&mut random, &job);
        assert_eq!(answer(&job, set.as_deref()), partner(&job, set.as_deref()), "job {count}: {set:?} beside {job:?}");
        met.add(&job, set.as_deref());
    }
    let Met { refused, sets, turned } = met;
    println!("second: {JOBS} jobs, sets {sets:?}, from and to 'below' {turned:?}, refusals by number {:?}", &refused[1..]);
    assert!(met.everything(), "some answer never came up");
}

#[test]
fn recorded_sets_are_answered() {
    for (count, (set, job)) in recorded::second_sets().iter().enumerate() {
        let lent = (!set.is_empty()).then_some(&set[..]);
        assert_eq!(answer(job, lent), partner(job, lent), "recorded job {count}: {set:?} beside {job:?}");
    }
}

/// Of random jobs those that are accepted, each with a good set.
fn accepted(random: &mut Random) -> (Vec<u8>, Vec<u8>, Report) {
    loop {
        let job = mixed_job(random);
        if let Ok(report) = jelmorand::screen(&job) {
            let set = good_set(random, &job);
            return (job, set, report);
        }
    }
}

#[test]
fn equal_set_changes_the_name_alone() {
    let mut random = Random::fresh("equal set");
    for _ in 0..PROMISES {
        let (job, _, report) = accepted(&mut random);
        let own = own_set(&job, report.factors.len());
        assert_eq!(report.set, CoefficientSet::Book);
        assert_eq!(jelmorand::screen_with(&job, Some(&own)), Ok(Report { set: CoefficientSet::Second, ..report }), "{job:?}");
        let lowest = jelmorand::lowest_rate_with(&job, Some(&own)).expect("an accepted job");
        assert_eq!(lowest, LowestRate { rate: jelmorand::lowest_rate(&job).expect("the same"), set: CoefficientSet::Second });
    }
}

/// The factors depend on no set, and with a second one nothing depends on the book's own numbers.
#[test]
fn numbers_not_in_use_change_nothing() {
    let mut random = Random::fresh("not in use");
    for _ in 0..PROMISES {
        let (job, set, report) = accepted(&mut random);
        let other = written_over(&job, &good_set(&mut random, &job));
        let with_set = jelmorand::screen_with(&job, Some(&set)).expect("a good set");
        assert_eq!((with_set.factors, with_set.concentration), (report.factors, report.concentration), "{set:?} beside {job:?}");
        assert_eq!(jelmorand::screen_with(&other, Some(&set)), Ok(with_set), "{set:?} beside {job:?}");
        let lowest = |job: &[u8]| jelmorand::lowest_rate_with(job, Some(&set));
        assert_eq!(lowest(&other), lowest(&job), "{set:?} beside {job:?}");
    }
}

/// The lowest rate that is answered is where the verdict with the same set turns.
#[test]
fn lowest_rate_is_that_of_the_set() {
    let mut random = Random::fresh("lowest of the set");
    for _ in 0..PROMISES {
        let (mut job, set, _) = accepted(&mut random);
        let rate = jelmorand::lowest_rate_with(&job, Some(&set)).expect("a good set").rate;
        let mut below = |v: u32| {
            job[..4].copy_from_slice(&v.to_le_bytes());
            jelmorand::screen_with(&job, Some(&set)).expect("a good set").verdict == Verdict::Below
        };
        let last = rate.map_or(100_000, |rate| rate.saturating_sub(1));
        assert!(!rate.is_some_and(|rate| !below(rate)), "not 'below' at {rate:?}");
        assert!(rate == Some(0) || !below(last), "'below' under {rate:?}");
    }
}

/// What is answered to a home with a book of so many members and this set.
fn refusal(book: &[u8], set: &[u8]) -> Option<Refusal> {
    let job = home_job(18, 0, 100, book);
    let refusal = jelmorand::screen_with(&job, Some(set)).err();
    assert_eq!(jelmorand::lowest_rate_with(&job, Some(set)).err(), refusal, "{set:?} beside {job:?}");
    refusal
}

#[test]
fn lengths_are_held_to() {
    let mut random = Random::fresh("lengths");
    for _ in 0..100 {
        let book = good_book(&mut random);
        let length = 20 * usize::from(book[0]);
        for lent in [0, 1, 4, 5, 16, length - 20, length - 4, length - 1, length + 1, length + 4, length + 20, 2 * length] {
            assert_eq!(refusal(&book, &vec![0; lent]), Some(Refusal::SecondSetOutOfRange), "{lent} bytes for {}", book[0]);
        }
        assert_eq!(refusal(&book, &vec![0; length]), None);
    }
}

#[test]
fn numbers_are_held_to_their_limit() {
    let mut random = Random::fresh("numbers");
    for _ in 0..20 {
        let book = good_book(&mut random);
        for at in 0..5 * usize::from(book[0]) {
            for (number, refused) in [(4_000_000_000u32, None), (4_000_000_001, Some(Refusal::SecondSetOutOfRange))] {
                let mut set = vec![0; 20 * usize::from(book[0])];
                set[4 * at..4 * at + 4].copy_from_slice(&number.to_le_bytes());
                assert_eq!(refusal(&book, &set), refused, "{number} in place {at}");
            }
        }
    }
}

/// A set that is as wrong as may be is refused only after all that is wrong with the job and its book.
#[test]
fn wrong_set_is_told_last() {
    let mut met = [false; 24];
    for job in recorded::jobs(recorded::REPORT) {
        let own = jelmorand::screen(&job).err().unwrap_or(Refusal::SecondSetOutOfRange);
        met[own.number() as usize] = true;
        for set in [&[][..], &[0xFF], &[0xFF; 400]] {
            assert_eq!(jelmorand::screen_with(&job, Some(set)).err(), Some(own), "{job:?}");
            assert_eq!(jelmorand::lowest_rate_with(&job, Some(set)).err(), Some(own), "{job:?}");
        }
    }
    assert!(met[1..19].iter().chain(&met[23..]).all(|was| *was), "some refusal never came up: {met:?}");
}
