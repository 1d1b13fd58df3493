//! Times the factor call and a whole job for many rates, one run at as many, a table of 200, and the factors after the most periods of
//! the most minutes, beside the plain rewrite, at a book of 16 members and 64 feeds. The rewrite of a job allocates its text, and that of
//! a table searches for each entry, digit by digit, so their times are no measure of a plain program's, and no ratio is printed there.
//! A lowest rate is timed beside the whole job, and a job's figures with a second set of coefficients beside those without.
#[path = "../tests/common/mod.rs"]
mod common;

use common::books::book_of;
use common::lowest_speed::timings;
use common::periods::in_turn;
use common::random::Random;
use common::second_sets::any_numbers;
use common::timing::{best, best_of_each};
use common::{plain, plain_job, plain_minutes, plain_rates, plain_table};
use jelmorand::{Exposure, Job, Kind, Medium, Unit, MAX_MEMBERS};
use std::hint::black_box;
use std::time::Duration;

const RATES: u32 = 10_000;
const ROUNDS: usize = 5;
const RUN_ROUNDS: usize = 20;
const TABLE_ROUNDS: usize = 50;
const PERIODS_ROUNDS: usize = 30;

/// The best time of several rounds over many rates.
fn over_rates(mut call: impl FnMut(u32)) -> Duration {
    best(ROUNDS, || (0..RATES).for_each(|k| call(black_box(k * 10))))
}

fn time_factors(book: &[u8]) {
    let mut list = [0u64; 16];
    let proved = over_rates(|v| {
        jelmorand::factors(v, black_box(book), black_box(&mut list)).expect("a good book");
    });
    let rewrite = over_rates(|v| {
        plain::factors(v, black_box(book), black_box(&mut list)).expect("a good book");
    });
    let ratio = proved.as_secs_f64() / rewrite.as_secs_f64();
    println!("speed: {RATES} rates, 16 members, 64 feeds: proved {proved:?}, plain u128 {rewrite:?}, ratio {ratio:.2}");
}

/// Both read the book once for the whole run.
fn time_run(book: &[u8]) {
    let rates: Vec<u32> = (0..RATES).map(|k| k * 10).collect();
    let mut answers = vec![0; rates.len()];
    let (mut proved_rows, mut plain_rows) = (vec![0; rates.len() * MAX_MEMBERS], vec![0; rates.len() * MAX_MEMBERS]);
    let proved_run = || {
        let (answers, rows) = black_box((&mut answers, &mut proved_rows));
        jelmorand::factors_at_rates_into(black_box(&rates), black_box(book), MAX_MEMBERS, answers, rows);
    };
    let plain_run = || {
        let chain = plain::read(black_box(book)).expect("a good book");
        plain_rates::fill_rows(black_box(&rates), &chain, MAX_MEMBERS, black_box(&mut plain_rows));
    };
    let (proved, rewrite) = best_of_each(RUN_ROUNDS, proved_run, plain_run);
    assert!(answers.iter().all(|answer| *answer == MAX_MEMBERS as i64), "a rate was refused");
    assert!(proved_rows == plain_rows, "the rows differ");
    let (row, ratio) = (proved / RATES, proved.as_secs_f64() / rewrite.as_secs_f64());
    println!("speed: {RATES} rates in one run: proved {proved:?}, a row {row:?}, plain u128 {rewrite:?}, ratio {ratio:.2}");
}

/// A dose job in indoor air at 4 pCi/L without uncertainty, for workers.
const WORKROOM: Job = Job {
    rate: 0,
    kind: Kind::Dose,
    medium: Medium::IndoorAir,
    unit: Unit::PciPerL,
    target: 6_195,
    attenuation: 1_000_000,
    value: 4.0,
    uncertainty: 0.0,
    exposure: Exposure::WORKER,
};

fn time_report(book: &[u8]) {
    let (mut job, mut room) = (WORKROOM.with_book(book), [0; jelmorand::REPORT_ROOM]);
    let mut proved_job = job.clone();
    let proved = over_rates(|v| {
        proved_job[..4].copy_from_slice(&v.to_le_bytes());
        jelmorand::report_into(black_box(&proved_job), black_box(&mut room)).expect("room for any report");
    });
    let rewrite = over_rates(|v| {
        job[..4].copy_from_slice(&v.to_le_bytes());
        black_box(plain_job::report(black_box(&job)));
    });
    assert!(jelmorand::report(&job) == plain_job::report(&job), "the two reports differ");
    assert!(jelmorand::screen(&job).is_ok(), "the job is refused");
    println!("speed: {RATES} jobs, 16 members, 64 feeds: proved {proved:?}, plain u128, with a text on the heap {rewrite:?}");
}

fn time_second_set(random: &mut Random, book: &[u8]) {
    let (job, set) = (WORKROOM.with_book(book), any_numbers(random, jelmorand::MAX_MEMBERS));
    let round = |set: Option<&[u8]>| {
        for _ in 0..RATES / 10 {
            black_box(jelmorand::screen_with(black_box(&job), black_box(set))).expect("a good job and set");
        }
    };
    let (with_set, without) = best_of_each(ROUNDS * 10, || round(Some(&set)), || round(None));
    let ratio = with_set.as_secs_f64() / without.as_secs_f64();
    println!("speed: {} jobs' figures: {without:?}, with a second set {with_set:?}, ratio {ratio:.2}", RATES / 10);
}

fn time_table(book: &[u8]) {
    let rates: Vec<u32> = (0..200).map(|k| k * 500).collect();
    let (mut proved_text, mut plain_text) = ([0; jelmorand::TABLE_ROOM], [0; jelmorand::TABLE_ROOM]);
    let proved = best(TABLE_ROUNDS, || {
        jelmorand::table_into(black_box(&rates), black_box(book), black_box(&mut proved_text)).expect("a good book");
    });
    let rewrite = best(TABLE_ROUNDS, || {
        plain_table::table(black_box(&rates), black_box(book), black_box(&mut plain_text)).expect("a good book");
    });
    assert!(proved_text == plain_text, "the two tables differ");
    println!("speed: a table of 200 rates, 16 members, 64 feeds: proved {proved:?}, plain u128, by search {rewrite:?}");
}

fn time_periods(book: &[u8]) {
    let rates = (0..jelmorand::MAX_PERIODS as u32).map(|k| k * 3_000);
    let periods: Vec<(u32, u32)> = rates.map(|rate| (rate, jelmorand::MAX_MINUTES)).collect();
    let numbers = in_turn(&periods);
    let (mut proved_list, mut plain_list) = ([0; jelmorand::MAX_MEMBERS], [0; jelmorand::MAX_MEMBERS]);
    let proved_call = || {
        jelmorand::factors_after(black_box(&periods), black_box(book), black_box(&mut proved_list)).expect("a good book");
    };
    let plain_call = || {
        plain_minutes::factors_after(black_box(&numbers), black_box(book), black_box(&mut plain_list)).expect("a good book");
    };
    let (proved, rewrite) = best_of_each(PERIODS_ROUNDS, proved_call, plain_call);
    assert!(proved_list == plain_list, "the two lists differ");
    let ratio = proved.as_secs_f64() / rewrite.as_secs_f64();
    let shape = "32 periods of 1,440 minutes, 16 members, 64 feeds";
    println!("speed: {shape}: proved {proved:?}, plain u128 {rewrite:?}, ratio {ratio:.2}");
}

fn main() {
    let mut random = Random::fresh("speed");
    let book = book_of(&mut random, 16, 64);
    time_factors(&book);
    time_run(&book);
    time_report(&book);
    time_second_set(&mut random, &book);
    time_table(&book);
    time_periods(&book);
    timings(&mut random).iter().for_each(|timing| println!("speed: {timing}"));
}
