//! How long a lowest rate takes beside the whole job, at the most members and feeds and for a gas alone.
use super::fan_jobs::{fan_job, hopeless_job};
use super::random::Random;
use super::timing::best_of_each;
use std::fmt;
use std::hint::black_box;
use std::time::Duration;

const ROUNDS: usize = 300;

/// Calls a round, so that a round of either takes about as long.
const LOWEST_CALLS: u32 = 30;
const REPORT_CALLS: u32 = 100;

pub struct Timing {
    members: u8,
    feeds: u8,
    answer: Option<u32>,
    lowest: Duration,
    report: Duration,
}

impl Timing {
    pub fn ratio(&self) -> f64 {
        self.lowest.as_secs_f64() / self.report.as_secs_f64()
    }
}

impl fmt::Display for Timing {
    fn fmt(&self, to: &mut fmt::Formatter<'_>) -> fmt::Result {
        let Timing { members, feeds, lowest, report, .. } = self;
        let answer = self.answer.map_or("none".to_owned(), |rate| rate.to_string());
        write!(to, "a lowest rate, members {members}, feeds {feeds}, answer {answer}: {lowest:?}, ")?;
        write!(to, "a whole job {report:?}, ratio {:.2}", self.ratio())
    }
}

fn timing(job: &[u8]) -> Timing {
    let mut room = [0; jelmorand::REPORT_ROOM];
    let lowest_round = || {
        for _ in 0..LOWEST_CALLS {
            black_box(jelmorand::lowest_rate(black_box(job))).expect("a good job");
        }
    };
    let report_round = || {
        for _ in 0..REPORT_CALLS {
            jelmorand::report_into(black_box(job), black_box(&mut room)).expect("room for any report");
        }
    };
    let (lowest, report) = best_of_each(ROUNDS, lowest_round, report_round);
    let answer = jelmorand::lowest_rate(job).expect("a good job");
    Timing { members: job[48], feeds: job[49], answer, lowest: lowest / LOWEST_CALLS, report: report / REPORT_CALLS }
}

/// For either size a job with an answer, the larger one's from the middle of the rates, and one with none.
pub fn timings(random: &mut Random) -> Vec<Timing> {
    let v = random.within(5_000, 50_000) as u32;
    let jobs = [fan_job(random, 16, 64, v), hopeless_job(random, 16, 64), fan_job(random, 1, 0, v), hopeless_job(random, 1, 0)];
    let timings: Vec<Timing> = jobs.iter().map(|job| timing(job)).collect();
    assert!(timings[0].answer.is_some_and(|rate| (3_000..=50_000).contains(&rate)), "the answer is not from the middle");
    assert_eq!([1, 2, 3].map(|i| timings[i].answer), [None, Some(0), None], "an answer is not as the job was made for");
    timings
}
