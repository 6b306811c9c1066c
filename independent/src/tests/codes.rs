//! Each code of the checker by a log made by hand.

use crate::answers::Answer;
use crate::joblist::{lists, Supply, Times};
use crate::record::RECORD_WORDS;
use crate::replay::check;

/// Case 2, with a job that lasts 0 and one that draws nothing behind it.
pub fn bench() -> (Times, Supply) {
    let jobs = [
        (2, 10, 3, 2),
        (2, 7, 3, 2),
        (2, 8, 4, 2),
        (4, 4, 0, 2),
        (4, 5, 1, 0),
    ];
    lists(5, &jobs)
}

/// The record of case 2.
pub const GOOD: [u32; RECORD_WORDS] = [0, 0, 4, 2, 6, 0, 0, 0, 0, 0, 0, 0];

/// GOOD with other words at some places.
fn with(changes: &[(usize, u32)]) -> [u32; RECORD_WORDS] {
    let mut record = GOOD;
    changes
        .iter()
        .for_each(|&(place, word)| record[place] = word);
    record
}

/// The answer for these records, and that the windows stay unless they hold.
pub fn checked(times: &Times, supply: &Supply, records: &[[u32; RECORD_WORDS]]) -> Answer {
    let mut after = times.clone();
    let answer = check(&mut after, supply, records.len() as u64, &records.concat());
    assert!(matches!(answer, Answer::Holds(_)) || &after == times);
    answer
}

fn assert_code(code: u32, records: &[[u32; RECORD_WORDS]]) {
    let (times, supply) = bench();
    let place = records.len() - 1;
    assert_eq!(
        checked(&times, &supply, records),
        Answer::Rejected(place, code)
    );
}

#[test]
fn code_20_after_a_closed_window() {
    let (times, supply) = lists(1, &[(0, 2, 2, 1); 2]);
    let closing = [0, 0, 1, 1, 2, 0, 0, 0, 0, 0, 0, 0];
    assert_eq!(checked(&times, &supply, &[closing]), Answer::Clash(1, 0));
    let nonsense = [u32::MAX; RECORD_WORDS];
    assert_eq!(
        checked(&times, &supply, &[closing, nonsense]),
        Answer::Rejected(1, 20)
    );
}

#[test]
fn code_21_for_a_job_a_side_or_a_time_that_is_none() {
    assert_code(21, &[with(&[(0, 5)])]);
    assert_code(21, &[with(&[(0, u32::MAX), (3, 9)])]);
    assert_code(21, &[with(&[(1, 2)])]);
    assert_code(21, &[with(&[(2, 1_000_001), (4, 1)])]);
    assert_code(25, &[with(&[(2, 1_000_000)])]);
}

#[test]
fn code_22_for_jobs_that_cannot_be_named() {
    for moved in [3, 4] {
        assert_code(22, &[with(&[(0, moved)])]);
    }
    let itself = 6 | 1;
    let lasts_nothing = 6 | 1 << 3;
    let draws_nothing = 6 | 1 << 4;
    let not_in_the_list = 6 | 1 << 5;
    for members in [itself, lasts_nothing, draws_nothing, not_in_the_list] {
        assert_code(22, &[with(&[(3, 3), (4, members)])]);
        assert_code(22, &[with(&[(3, 9), (4, members)])]);
    }
    assert_code(22, &[with(&[(3, 3), (11, 1 << 31)])]);
}

#[test]
fn code_23_for_a_wrong_count() {
    for count in [0, 1, 3, u32::MAX] {
        assert_code(23, &[with(&[(3, count)])]);
    }
}

#[test]
fn code_24_for_demands_within_the_capacity() {
    assert_code(24, &[with(&[(3, 1), (4, 2)])]);
    assert_code(24, &[with(&[(3, 0), (4, 0)])]);
    assert_code(24, &[with(&[(2, 999), (3, 1), (4, 2)])]);
}

#[test]
fn code_25_for_a_fact_that_is_not_true() {
    assert_code(25, &[with(&[(2, 5)])]);
    assert_code(25, &[with(&[(2, 3)])]);
    assert_code(25, &[with(&[(1, 1)])]);
    assert_code(25, &[with(&[(2, 0)])]);
}

#[test]
fn code_25_looks_at_the_windows_reached() {
    let (times, supply) = lists(2, &[(3, 7, 2, 1), (2, 7, 3, 2)]);
    let first = [0, 0, 4, 1, 2, 0, 0, 0, 0, 0, 0, 0];
    let second = [1, 1, 5, 1, 1, 0, 0, 0, 0, 0, 0, 0];
    assert_eq!(checked(&times, &supply, &[first, second]), Answer::Holds(2));
    assert_eq!(
        checked(&times, &supply, &[second, first]),
        Answer::Rejected(0, 25)
    );
}

#[test]
fn code_26_for_a_change_that_tightens_nothing() {
    assert_code(26, &[GOOD, GOOD]);
    let (times, supply) = lists(1, &[(0, 9, 2, 2)]);
    let at = |side, t| [0, side, t, 0, 0, 0, 0, 0, 0, 0, 0, 0];
    assert_eq!(
        checked(&times, &supply, &[at(1, 9)]),
        Answer::Rejected(0, 26)
    );
    assert_eq!(checked(&times, &supply, &[at(1, 8)]), Answer::Holds(1));
    assert_eq!(
        checked(&times, &supply, &[at(1, 6)]),
        Answer::Rejected(0, 25)
    );
}
