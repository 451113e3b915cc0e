//! The independent second program: an owned tree decoded from a block's bytes and encoded back, held against the
//! proved library call by call and byte by byte. Built with `--cfg alone` it needs no library and tests itself.

mod calls;
mod compare;
mod counted;
mod coverage;
mod crafted;
mod cuts;
mod display;
#[cfg(alone)]
mod embedded_test;
mod encode;
mod foreign;
mod generate;
mod hostile;
#[cfg(alone)]
mod invariants;
mod ledger;
mod limits;
mod lists;
mod model;
mod orders;
mod pages;
#[cfg(alone)]
mod pages_test;
#[cfg(not(alone))]
mod proved;
mod random;
mod reader;
mod removal;
#[cfg(alone)]
mod removal_test;
mod schedule;
#[cfg(alone)]
mod self_test;
mod series;
mod spoilt;
mod stored;
mod sweeps;
mod verdict;
mod wear;
#[cfg(alone)]
mod wear_invariants;
#[cfg(alone)]
mod wear_test;
mod worn;
mod write_list;
#[cfg(alone)]
mod write_list_test;

use compare::{Comparison, Other};
use std::process::ExitCode;

/// The calls of a run that names no other number.
const CALLS: u64 = 1_600_000;

/// One list of calls, one series of pages, one block of write lists, and one worn block, for so many calls that are
/// made one by one.
const CALLS_FOR_A_LIST: u64 = 50;
const CALLS_FOR_A_SERIES: u64 = 500;
const CALLS_FOR_STORED: u64 = 100;
const CALLS_FOR_WORN: u64 = 100;

/// The other program is the proved library.
#[cfg(not(alone))]
const OTHER: (Option<Other>, &str) = (Some(proved::OTHER), "second_program");

/// The self-test has no other program; invariants and the ledger judge the model.
#[cfg(alone)]
const OTHER: (Option<Other>, &str) = (None, "second_program alone");

/// Makes the calls, prints the counts, and fails on any difference or on a count that falls short.
fn main() -> ExitCode {
    let arguments: Vec<String> = std::env::args().skip(1).collect();
    let number = |text: &String| text.parse().expect("the first argument is a number of calls");
    let target = arguments.first().map_or(CALLS, number);
    let traced = arguments.get(1).is_some_and(|text| text == "trace");
    #[cfg(alone)]
    self_test::run();
    let mut comparison = Comparison::new(OTHER.0, traced);
    orders::run(&mut comparison);
    sweeps::run(&mut comparison);
    limits::run(&mut comparison);
    schedule::run(&mut comparison, target);
    let series = target / CALLS_FOR_A_SERIES;
    series::run(&mut comparison, series);
    stored::run(&mut comparison, target / CALLS_FOR_STORED);
    worn::run(&mut comparison, target / CALLS_FOR_WORN);
    schedule::lists(&mut comparison, target / CALLS_FOR_A_LIST);
    let (calls, lists) = (comparison.coverage.calls, comparison.listed.lists());
    let least = if lists < 20_000 { 0 } else { 50 };
    let short = comparison.coverage.report() + comparison.report_cuts() + comparison.listed.report_lists(least);
    if short > 0 {
        println!("{short} counts fall short");
    }
    comparison.print_kept();
    let cuts = format!("{} write lists cut at {} places", comparison.cut_lists, comparison.cuts);
    let counts = format!("{calls} calls, {series} series of pages, {cuts} and {lists} lists of calls");
    println!("{}: {counts}, {} differences", OTHER.1, comparison.differences);
    match short == 0 && comparison.differences == 0 {
        true => ExitCode::SUCCESS,
        false => ExitCode::FAILURE,
    }
}
