//! Windows that are refused cost no more for being many: the length of the list is tested before any window is looked at.
#![cfg(feature = "proved")]

use postman_tests::instances::fullest;
use postman_tests::oracle::file_of;
use postman_tests::plan::{Departure, MOST_WINDOWS, SHEET_PLACES};
use postman_tests::planner::{DepartureCall, Proved};
use std::time::{Duration, Instant};

/// The least time of a call with so many windows, all of them good ones, of several calls.
fn refused(file: &[u8], windows: usize) -> Duration {
    let numbers: Vec<u16> = [0, 0, 0, 1].repeat(windows);
    let mut sheet = vec![0; SHEET_PLACES];
    let mut call = || {
        let began = Instant::now();
        let answer = Proved.plan_call_at(file, 1, &numbers, Departure { weekday: 1, minute: 0 }, &mut sheet);
        let took = began.elapsed();
        assert_eq!(answer.expect_err("too many windows"), 19);
        took
    };
    (0..50).map(|_| call()).min().expect("some calls")
}

/// By calls of one run: a million windows, of which each of 256 arcs would have to be looked up, against one window too many.
#[test]
fn a_million_windows_are_refused_as_fast_as_129() {
    let file = file_of(&fullest());
    let (few, many) = (refused(&file, MOST_WINDOWS + 1), refused(&file, 1_000_000));
    assert!(many < 3 * few, "{many:?} for a million windows, {few:?} for {}", MOST_WINDOWS + 1);
}
