//! The computing of a portfolio run alone: the library's call for many rates beside that of `portfolio.rs`.
//!
//!     rustc -O --edition 2024 -L native=FOLDER -l static=jelmorand docs/src/portfolio_times.rs
//!     portfolio_times BOOKFILE FROM TO STEP ROUNDS
//!
//! First every answer and every place of the rows are compared, for rows that are as wide as the longest book, wider, narrower
//! and cut short. Then both calls run in turn, with lists that were allocated before, as many times as ROUNDS says; the last line
//! has the best time of each, and how many times as long ours takes. Where something differs, or a word is wrong, a line says so
//! on standard error, and the exit status is 1. `compare_portfolio.py` builds and runs it.

#[path = "portfolio.rs"]
#[allow(dead_code)] // what the program needs besides
mod portfolio;

use portfolio::MEMBERS;
use std::env;
use std::fs;
use std::process::ExitCode;
use std::time::{Duration, Instant};

unsafe extern "C" {
    fn jelmorand_factors_at_rates(
        rates: *const u32,
        rates_length: usize,
        book: *const u8,
        book_length: usize,
        width: usize,
        answers: *mut i64,
        answers_length: usize,
        rows: *mut u64,
        rows_length: usize,
    ) -> i64;
}

/// The library's call, as `portfolio.rs` has it.
fn library(rates: &[u32], book: &[u8], width: usize, answers: &mut [i64], rows: &mut [u64]) -> usize {
    // Each list is lent with its own length, and is not looked at after the call.
    let run = unsafe {
        jelmorand_factors_at_rates(
            rates.as_ptr(),
            rates.len(),
            book.as_ptr(),
            book.len(),
            width,
            answers.as_mut_ptr(),
            answers.len(),
            rows.as_mut_ptr(),
            rows.len(),
        )
    };
    usize::try_from(run).expect("the library says how many rates were run")
}

type Call = fn(&[u32], &[u8], usize, &mut [i64], &mut [u64]) -> usize;

/// What each place of a list holds before a call.
const MARK: u8 = 7;

/// All that a call leaves: how many rates were run, the answers and the rows, every place of both.
fn left_by(call: Call, rates: &[u32], book: &[u8], width: usize, answers: usize, rows: usize) -> (usize, Vec<i64>, Vec<u64>) {
    let (mut answers, mut rows) = (vec![i64::from(MARK); answers], vec![u64::from(MARK); rows]);
    let run = call(rates, book, width, &mut answers, &mut rows);
    (run, answers, rows)
}

/// The first shape of the lists at which the two leave something else, or how many shapes there were.
fn compare(rates: &[u32], book: &[u8]) -> Result<usize, String> {
    let count = rates.len();
    let mut shapes =
        vec![(MEMBERS, count, MEMBERS * count), (MEMBERS, count + 3, MEMBERS * count + 5), (MEMBERS, count / 2, MEMBERS * count)];
    shapes.extend((0..=MEMBERS + 2).map(|width| (width, count, width * count)));
    shapes.extend((0..=MEMBERS + 1).map(|cut| (MEMBERS, count, (MEMBERS * count).saturating_sub(cut))));
    shapes.extend([
        (MEMBERS, 0, MEMBERS),
        (MEMBERS, count, 0),
        (usize::MAX, count, 3 * MEMBERS),
        (usize::MAX / 2, count, MEMBERS - 1),
    ]);
    for &(width, answers, rows) in &shapes {
        if left_by(library, rates, book, width, answers, rows)
            != left_by(portfolio::factors_at_rates, rates, book, width, answers, rows)
        {
            return Err(format!("a difference with {answers} places for answers, {rows} in the rows and a width of {width}"));
        }
    }
    Ok(shapes.len())
}

/// The best time of each call, both in turn.
fn best_times(calls: [Call; 2], rates: &[u32], book: &[u8], rounds: usize) -> [Duration; 2] {
    let (mut answers, mut rows) = (vec![0; rates.len()], vec![0; MEMBERS * rates.len()]);
    let mut best = [Duration::MAX; 2];
    for _ in 0..rounds {
        for (best, call) in best.iter_mut().zip(calls) {
            let began = Instant::now();
            call(rates, book, MEMBERS, &mut answers, &mut rows);
            *best = began.elapsed().min(*best);
        }
    }
    best
}

fn run() -> Result<(), String> {
    let words: Vec<String> = env::args().skip(1).collect();
    let [path, numbers @ ..] = &words[..] else { return Err("no book".to_string()) };
    let numbers: Result<Vec<u32>, _> = numbers.iter().map(|word| word.parse()).collect();
    let Ok(&[from, to, step, rounds]) = numbers.as_deref() else { return Err("not four numbers after the book".to_string()) };
    let book = fs::read(path).map_err(|error| format!("{path}: {error}"))?;
    let rates: Vec<u32> = (from..=to).step_by(step as usize).collect();

    let shapes = compare(&rates, &book)?;
    println!("{} rates: every answer and every place of the rows are the same, for {shapes} shapes of the lists", rates.len());
    let [ours, plain] =
        best_times([library, portfolio::factors_at_rates], &rates, &book, rounds as usize).map(|best| best.as_secs_f64() * 1e6);
    println!(
        "computing alone: {ours:.1} and {plain:.1} microseconds, best of {rounds} rounds, {:.2} times as long",
        ours / plain
    );
    Ok(())
}

fn main() -> ExitCode {
    match run() {
        Ok(()) => ExitCode::SUCCESS,
        Err(line) => {
            eprintln!("portfolio_times: {line}");
            ExitCode::FAILURE
        }
    }
}
