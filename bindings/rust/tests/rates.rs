//! Runs at many rates, every answer and every place of the rows: against the plain rewrite on random runs and on the recorded ones,
//! and against the factor call, rate by rate, as R-9 of document 02 asks.
mod common;

use common::books::{any_book, any_rate, book_of};
use common::plain_rates;
use common::random::Random;
use common::recorded;
use common::runs::{any_run, Run};
use jelmorand::{answered, factors_at_rates, factors_at_rates_into, Refusal, MAX_MEMBERS};

const RUNS: usize = 15_000;
const LISTS: usize = 2_000;

/// A call for many rates, the library's or one that must answer the same.
type Call = fn(&[u32], &[u8], usize, &mut [i64], &mut [u64]) -> usize;

/// What a call leaves: how many rates it has run, the answers, the rows.
type Left = (usize, Vec<i64>, Vec<u64>);

fn left(run: &Run, call: Call) -> Left {
    let (mut answers, mut rows) = (run.answers.clone(), run.rows.clone());
    let count = call(&run.rates, &run.book, run.width, &mut answers, &mut rows);
    (count, answers, rows)
}

/// The factor call with each row in turn. The rows are split off one by one, so that the place where one begins is never worked out.
fn factor_calls(rates: &[u32], book: &[u8], width: usize, answers: &mut [i64], rows: &mut [u64]) -> usize {
    let (mut rest, mut count) = (rows, 0);
    for (rate, answer) in rates.iter().zip(answers) {
        let (row, others) = rest.split_at_mut(width.min(rest.len()));
        *answer = match jelmorand::factors(*rate, book, row) {
            Ok(n) => n as i64,
            Err(refusal) => -i64::from(refusal.number()),
        };
        (rest, count) = (others, count + 1);
    }
    count
}

/// How many rows were accepted, and how often each refusal came up; how many runs had rates that were not run, a row that was cut short
/// and had room all the same, and a row that would begin at a place that no number counts.
#[derive(Default)]
struct Met {
    accepted: usize,
    refused: [usize; 20],
    not_run: usize,
    cut: usize,
    far: usize,
}

impl Met {
    fn add(&mut self, run: &Run, (count, answers, _): &Left) {
        for answer in &answers[..*count] {
            match answered(*answer) {
                Ok(_) => self.accepted += 1,
                Err(refusal) => self.refused[refusal.number() as usize] += 1,
            }
        }
        let ends = |k: usize| (k + 1).saturating_mul(run.width);
        self.cut += usize::from((0..*count).any(|k| answers[k] > 0 && ends(k) > run.rows.len()));
        self.far += usize::from((1..*count).any(|k| k.checked_mul(run.width).is_none()));
        self.not_run += usize::from(*count < run.rates.len());
    }

    fn everything(&self) -> bool {
        let refusals = self.refused[3..4].iter().chain(&self.refused[9..]);
        refusals.chain([&self.accepted, &self.not_run, &self.cut, &self.far]).all(|n| *n > 0)
    }
}

#[test]
fn runs_agree_with_the_rewrite_and_the_factor_call() {
    let mut random = Random::fresh("rates");
    let mut met = Met::default();
    for number in 0..RUNS {
        let run = any_run(&mut random);
        let ours = left(&run, factors_at_rates_into);
        assert!(ours == left(&run, plain_rates::factors_at_rates), "run {number}: not the rewrite's: {run:?}");
        assert!(ours == left(&run, factor_calls), "run {number}: not the factor call's: {run:?}");
        met.add(&run, &ours);
    }
    let Met { accepted, refused, not_run, cut, far } = &met;
    println!("rates: {RUNS} runs, {accepted} rows accepted, refusals by number {:?}", &refused[3..]);
    println!("rates: with rates that were not run {not_run}, with a row cut short {cut}, with a row past every number {far}");
    assert!(met.everything(), "some answer never came up");
}

/// A run's line as the program `recorded` writes it: how many rates were run, the answers and the rows.
fn line((count, answers, rows): &Left) -> String {
    let words = |numbers: &[String]| numbers.iter().map(|number| format!(" {number}")).collect::<String>();
    let answers: Vec<String> = answers.iter().map(i64::to_string).collect();
    let rows: Vec<String> = rows.iter().map(u64::to_string).collect();
    format!("run {count} :{} :{}", words(&answers), words(&rows))
}

#[test]
fn recorded_runs_are_answered() {
    for (number, (run, recorded)) in recorded::runs().iter().enumerate() {
        assert_eq!(line(&left(run, factors_at_rates_into)), *recorded, "recorded run {number}: {run:?}");
        assert_eq!(line(&left(run, plain_rates::factors_at_rates)), *recorded, "recorded run {number}: {run:?}");
    }
}

/// The list of what each rate has, by the factor call.
#[test]
fn lists_have_what_the_factor_call_answers() {
    let mut random = Random::fresh("rate lists");
    for number in 0..LISTS {
        let (count, book) = (random.within(0, 12), any_book(&mut random));
        let rates: Vec<u32> = (0..count).map(|_| any_rate(&mut random)).collect();
        let lists = factors_at_rates(&rates, &book);
        assert_eq!(lists.len(), rates.len());
        for (rate, factors) in rates.iter().zip(lists) {
            let mut list = [0; MAX_MEMBERS];
            let expected = jelmorand::factors(*rate, &book, &mut list).map(|n| list[..n].to_vec());
            assert_eq!(factors.map(|factors| factors.to_vec()), expected, "list {number}: rate {rate}, book {book:?}");
        }
    }
}

/// The run of the portfolio: the rates from 0 to 99,990 in tens, of a book of the most members and feeds.
#[test]
fn ten_thousand_rates_are_as_by_the_factor_call() {
    let book = book_of(&mut Random::fresh("ten thousand"), MAX_MEMBERS, 64);
    let rates: Vec<u32> = (0..10_000).map(|k| 10 * k).collect();
    let run = Run { width: MAX_MEMBERS, answers: vec![7; rates.len()], rows: vec![7; MAX_MEMBERS * rates.len()], rates, book };
    let ours = left(&run, factors_at_rates_into);
    assert!(ours.1.iter().all(|answer| *answer == MAX_MEMBERS as i64), "some rate was refused: {:?}", run.book);
    assert!(ours == left(&run, factor_calls), "not the factor call's: {:?}", run.book);
    assert!(ours == left(&run, plain_rates::factors_at_rates), "not the rewrite's: {:?}", run.book);
}

/// Every multiple of these widths is past the list, though it may be 0 or 1 in a usize; the first row is the whole list.
#[test]
fn wide_rows_do_not_wrap_around() {
    let book = book_of(&mut Random::from_seed(1), 2, 1);
    for width in [usize::MAX, usize::MAX - 1, usize::MAX / 2 + 1, usize::MAX / 2 + 2, usize::MAX / 4 + 1, usize::MAX / 3 + 1] {
        let run = Run { rates: vec![0; 9], book: book.clone(), width, answers: vec![7; 9], rows: vec![7; 20] };
        let (count, answers, rows) = left(&run, factors_at_rates_into);
        assert_eq!((count, answers), (9, [[2].as_slice(), &[-19; 8]].concat()), "width {width}");
        assert_eq!(rows[2..], [7; 18], "width {width}");
    }
}

#[test]
fn empty_lists_run_nothing() {
    let book = book_of(&mut Random::from_seed(1), 1, 0);
    for book in [&book[..], &[]] {
        let (mut answers, mut rows) = ([7; 2], [7; 2]);
        assert_eq!(factors_at_rates_into(&[], book, 1, &mut answers, &mut rows), 0);
        assert_eq!(factors_at_rates_into(&[0, 0], book, 1, &mut [], &mut rows), 0);
        assert_eq!(factors_at_rates_into(&[], book, 0, &mut [], &mut []), 0);
        assert_eq!((answers, rows), ([7; 2], [7; 2]));
        assert_eq!(factors_at_rates(&[], book), []);
    }
    for (book, refusal) in [(&book[..], Refusal::ListTooShort), (&[], Refusal::BookTooShort)] {
        let mut answers = [7; 3];
        assert_eq!(factors_at_rates_into(&[0, 100_001], book, usize::MAX, &mut answers, &mut []), 2);
        assert_eq!(answers.map(answered), [Err(refusal), Err(Refusal::RateTooHigh), Ok(7)]);
    }
}
