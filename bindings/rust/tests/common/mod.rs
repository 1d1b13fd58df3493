//! What the tests and the timing share: a rewrite of documents 01 and 02 in plain Rust, random books, jobs, second sets, tables,
//! tables from elsewhere, periods and runs at many rates, the recorded jobs, answers as texts, and how a time is taken.
#![allow(dead_code)]

pub mod books;
pub mod edge_jobs;
pub mod elsewhere;
pub mod fan_jobs;
pub mod lowest_speed;
pub mod periods;
pub mod plain;
pub mod plain_job;
pub mod plain_lowest;
pub mod plain_marks;
pub mod plain_minutes;
pub mod plain_rates;
pub mod plain_second;
pub mod plain_table;
pub mod random;
pub mod recorded;
pub mod runs;
pub mod second_sets;
pub mod tables;
pub mod texts;
pub mod timing;
