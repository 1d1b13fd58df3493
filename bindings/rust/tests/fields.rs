//! A job's figures against the plain rewrite on random jobs, and against its report's text, there and on the recorded jobs.
mod common;

use common::books::any_job;
use common::edge_jobs::edge_job;
use common::plain_job;
use common::random::Random;
use common::recorded;
use common::texts::{text_of, word};
use jelmorand::{Report, WorkingLevels};

const JOBS: usize = 10_000;

/// The figures' text, which for a refused job is the line of its refusal.
fn screened(job: &[u8]) -> String {
    match jelmorand::screen(job) {
        Ok(report) => text_of(&report),
        Err(refusal) => format!("refused {}\n", refusal.number()),
    }
}

fn same(report: &Report, plain: &plain_job::Figures) -> bool {
    let working = |levels: WorkingLevels| (u128::from(levels.equilibrium), u128::from(levels.micro));
    *report.factors == plain.factors[..]
        && u128::from(report.concentration) == plain.air
        && word(report.verdict) == plain.verdict
        && u128::from(report.level) == plain.level
        && report.working.map(working) == plain.working
}

#[test]
fn figures_agree_with_the_rewrite() {
    let mut random = Random::fresh("figures");
    let (mut verdicts, mut levels, mut refused) = ([0; 3], [0; 2], [0; 19]);
    for count in 0..JOBS {
        let job = if random.one_in(2) { edge_job(&mut random) } else { any_job(&mut random) };
        match (jelmorand::screen(&job), plain_job::figures(&job)) {
            (Ok(report), Ok(plain)) => {
                assert!(same(&report, &plain), "job {count}: {report:?} of {job:?}");
                verdicts[report.verdict as usize] += 1;
                levels[usize::from(report.working.is_some())] += 1;
            }
            (Err(refusal), Err(number)) => {
                assert_eq!(refusal.number(), number, "job {count}: {job:?}");
                refused[number as usize] += 1;
            }
            (report, _) => panic!("job {count}: {report:?} of {job:?}"),
        }
        assert_eq!(screened(&job), jelmorand::report(&job), "job {count}: {job:?}");
    }
    println!("figures: {JOBS} jobs, below, close, above {verdicts:?}, refusals by number {:?}", &refused[1..]);
    assert!(verdicts.iter().chain(&levels).chain(&refused[1..]).all(|n| *n > 0), "some answer never came up");
}

#[test]
fn figures_of_recorded_jobs_are_their_reports() {
    for kind in [recorded::REPORT, recorded::LOWEST] {
        for (count, job) in recorded::jobs(kind).iter().enumerate() {
            assert_eq!(screened(job), jelmorand::report(job), "kind {kind}, job {count}: {job:?}");
        }
    }
}
