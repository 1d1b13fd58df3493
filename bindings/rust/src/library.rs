//! The calls of the archive, on slices: the one module with `unsafe`. A slice's pointer is never null, is aligned and has its length
//! of elements behind it, and what is written is borrowed alone, so each call gets what the C header asks. Every call answers what the
//! C one does, once the archive is known to be of this package's version. Those that may be lent a second set are always made so: with
//! no bytes they answer what the calls without one do.
#![allow(unsafe_code)]

use crate::version;

/// The header's struct of the same name.
#[derive(Default)]
#[repr(C)]
pub struct Figures {
    pub verdict: u64,
    pub concentration: u64,
    pub level: u64,
    pub equilibrium: u64,
    pub working: u64,
    pub count: u64,
}

extern "C" {
    fn jelmorand_version() -> i64;
    fn jelmorand_factors(rate: u32, book: *const u8, book_len: usize, out: *mut u64, out_len: usize) -> i64;
    fn jelmorand_factors_at_rates(
        rates: *const u32,
        rates_len: usize,
        book: *const u8,
        book_len: usize,
        width: usize,
        answers: *mut i64,
        answers_len: usize,
        rows: *mut u64,
        rows_len: usize,
    ) -> i64;
    fn jelmorand_report(job: *const u8, job_len: usize, out: *mut u8, out_len: usize) -> i64;
    fn jelmorand_table(
        rates: *const u32,
        rates_len: usize,
        book: *const u8,
        book_len: usize,
        out: *mut u8,
        out_len: usize,
    ) -> i64;
    fn jelmorand_marks(text: *const u8, text_len: usize, book: *const u8, book_len: usize, marks: *mut [u64; 5]) -> i64;
    fn jelmorand_factors_after(
        periods: *const u32,
        periods_len: usize,
        book: *const u8,
        book_len: usize,
        out: *mut u64,
        out_len: usize,
    ) -> i64;
    fn jelmorand_screen_with(
        job: *const u8,
        job_len: usize,
        second: *const u8,
        second_len: usize,
        set: *mut u32,
        figures: *mut Figures,
        factors: *mut u64,
        factors_len: usize,
    ) -> i64;
    fn jelmorand_lowest_rate_with(job: *const u8, job_len: usize, second: *const u8, second_len: usize, set: *mut u32) -> i64;
}

pub fn version() -> i64 {
    unsafe { jelmorand_version() }
}

pub fn factors(rate: u32, book: &[u8], out: &mut [u64]) -> i64 {
    version::check();
    unsafe { jelmorand_factors(rate, book.as_ptr(), book.len(), out.as_mut_ptr(), out.len()) }
}

pub fn factors_at_rates(rates: &[u32], book: &[u8], width: usize, answers: &mut [i64], rows: &mut [u64]) -> i64 {
    version::check();
    unsafe {
        jelmorand_factors_at_rates(
            rates.as_ptr(),
            rates.len(),
            book.as_ptr(),
            book.len(),
            width,
            answers.as_mut_ptr(),
            answers.len(),
            rows.as_mut_ptr(),
            rows.len(),
        )
    }
}

pub fn report(job: &[u8], out: &mut [u8]) -> i64 {
    version::check();
    unsafe { jelmorand_report(job.as_ptr(), job.len(), out.as_mut_ptr(), out.len()) }
}

pub fn table(rates: &[u32], book: &[u8], out: &mut [u8]) -> i64 {
    version::check();
    unsafe { jelmorand_table(rates.as_ptr(), rates.len(), book.as_ptr(), book.len(), out.as_mut_ptr(), out.len()) }
}

pub fn marks(text: &[u8], book: &[u8], marks: &mut [u64; 5]) -> i64 {
    version::check();
    unsafe { jelmorand_marks(text.as_ptr(), text.len(), book.as_ptr(), book.len(), marks) }
}

pub fn factors_after(periods: &[u32], book: &[u8], out: &mut [u64]) -> i64 {
    version::check();
    unsafe { jelmorand_factors_after(periods.as_ptr(), periods.len(), book.as_ptr(), book.len(), out.as_mut_ptr(), out.len()) }
}

pub fn screen(job: &[u8], second: &[u8], set: &mut u32, figures: &mut Figures, factors: &mut [u64]) -> i64 {
    version::check();
    let (lent, places) = (second.as_ptr(), factors.as_mut_ptr());
    unsafe { jelmorand_screen_with(job.as_ptr(), job.len(), lent, second.len(), set, figures, places, factors.len()) }
}

pub fn lowest_rate(job: &[u8], second: &[u8], set: &mut u32) -> i64 {
    version::check();
    unsafe { jelmorand_lowest_rate_with(job.as_ptr(), job.len(), second.as_ptr(), second.len(), set) }
}
