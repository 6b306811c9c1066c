//! Windows that are too short, by hand: narrowing, the checker and the overload
//! check (02, Item 3).

use super::overload::{assert_overload, times_of};
use crate::answers::Answer;
use crate::joblist::{lists, Supply, Times};
use crate::overload::overload;
use crate::record::RECORD_WORDS;
use crate::replay::check;
use crate::timetable::narrow;

type Quad = (u32, u32, u32, u32);

/// Whatever the whole log, narrowing names this job without a record and leaves
/// windows and log; so does the checker where no record is claimed, and where
/// there are some it rejects the first.
pub fn assert_named(job: usize, times: &Times, supply: &Supply) {
    for length in [0, 1, 3].map(|records| records * RECORD_WORDS) {
        let (mut after, mut log) = (times.clone(), vec![9; length]);
        let answer = narrow(&mut after, supply, &mut log);
        assert_eq!(answer, Answer::Clash(0, job));
        assert_eq!((&after, log), (times, vec![9; length]));
        for count in 0..=length / RECORD_WORDS {
            let answer = check(&mut after, supply, count as u64, &vec![9; length]);
            let expected = match count {
                0 => Answer::Clash(0, job),
                _ => Answer::Rejected(0, 20),
            };
            assert_eq!(answer, expected);
            assert_eq!(&after, times);
        }
    }
}

fn assert_clash(job: usize, cap: u32, jobs: &[Quad]) {
    let (times, supply) = lists(cap, jobs);
    assert_named(job, &times, &supply);
}

#[test]
fn a_job_too_long_for_its_window_clashes() {
    assert_clash(0, 1, &[(3, 6, 4, 1)]);
    assert_clash(0, 0, &[(3, 6, 4, 0)]);
    assert_clash(0, 10_000, &[(5, 5, 1, 1)]);
    assert_clash(0, 1, &[(1_000_000, 1_000_000, 1, 0)]);
    assert_clash(0, 1, &[(1_000_000, 0, 1_000_000, 10_000)]);
}

#[test]
fn a_job_that_lasts_nothing_can_be_too_long() {
    assert_clash(0, 1, &[(5, 4, 0, 1)]);
    assert_clash(0, 1, &[(1, 0, 0, 0)]);
    assert_clash(0, 0, &[(1_000_000, 0, 0, 5)]);
}

#[test]
fn the_lowest_such_job_is_named() {
    assert_clash(1, 1, &[(0, 9, 1, 1), (5, 5, 1, 0), (2, 1, 0, 3)]);
    assert_clash(0, 1, &[(2, 1, 0, 0), (0, 9, 1, 1), (0, 1, 9, 1)]);
    assert_clash(2, 1, &[(0, 4, 2, 1), (0, 4, 2, 1), (4, 3, 0, 0)]);
    let mut many = [(0, 1, 0, 0); 256];
    many[255] = (0, 1, 2, 0);
    assert_clash(255, 1, &many);
    many[40].2 = 2;
    assert_clash(40, 1, &many);
}

#[test]
fn no_record_is_made_for_the_others() {
    assert_clash(2, 1, &[(0, 2, 2, 1), (0, 2, 2, 1), (9, 9, 1, 1)]);
    assert_clash(1, 1, &[(0, 3, 1, 2), (1, 0, 0, 0)]);
    assert_clash(
        3,
        5,
        &[(2, 10, 3, 2), (2, 7, 3, 2), (2, 8, 4, 2), (3, 6, 4, 1)],
    );
}

#[test]
fn a_window_that_just_fits_is_not_too_short() {
    let just_fit = [(3, 7, 4, 1), (1_000_000, 1_000_000, 0, 1), (0, 0, 0, 1)];
    let (mut times, supply) = lists(1, &just_fit);
    assert_eq!(narrow(&mut times, &supply, &mut []), Answer::Settled(0));
    assert_eq!(check(&mut times, &supply, 0, &[]), Answer::Holds(0));
    assert_eq!(overload(&times), Answer::None);
    assert_clash(3, 1, &[&just_fit[..], &[(3, 7, 5, 1)]].concat());
}

#[test]
fn a_record_that_would_be_taken_without_the_short_window_is_rejected_too() {
    let case_2 = [(2, 10, 3, 2), (2, 7, 3, 2), (2, 8, 4, 2)];
    let log = [0, 0, 4, 2, 6, 0, 0, 0, 0, 0, 0, 0];
    let (mut times, supply) = lists(5, &case_2);
    assert_eq!(check(&mut times, &supply, 1, &log), Answer::Holds(1));
    let (mut times, supply) = lists(5, &[&case_2[..], &[(1, 0, 0, 0)]].concat());
    let submitted = times.clone();
    let answer = check(&mut times, &supply, 1, &log);
    assert_eq!((answer, times), (Answer::Rejected(0, 20), submitted));
}

/// Refused so by narrowing and, whatever is claimed, by the checker; windows and
/// log stay.
fn assert_refused(number: u32, times: &Times, supply: &Supply) {
    let (mut after, mut log) = (times.clone(), [9; 12]);
    let refused = Answer::Refused(number);
    assert_eq!(narrow(&mut after, supply, &mut log), refused);
    assert_eq!(log, [9; 12]);
    for count in [0, 1, 2, u64::MAX] {
        assert_eq!(check(&mut after, supply, count, &log), refused);
    }
    assert_eq!(&after, times);
}

#[test]
fn refusals_1_to_3_come_before_a_short_window() {
    let (mut times, mut supply) = lists(1, &[(3, 6, 4, 1); 257]);
    assert_refused(2, &times, &supply);
    assert_eq!(overload(&times), Answer::Refused(2));
    times.lct.pop();
    assert_refused(1, &times, &supply);
    assert_eq!(overload(&times), Answer::Refused(1));

    (times, supply) = lists(1, &[(3, 6, 4, 1), (0, 1_000_001, 1, 1)]);
    assert_refused(3, &times, &supply);
    assert_eq!(overload(&times), Answer::Refused(3));
    (times, supply) = lists(1, &[(3, 6, 1_000_001, 1)]);
    assert_refused(3, &times, &supply);
    assert_eq!(overload(&times), Answer::Refused(3));
    (times, supply) = lists(10_001, &[(3, 6, 4, 1)]);
    assert_refused(3, &times, &supply);
    assert_eq!(overload(&times), Answer::Overload(3, 6));
}

#[test]
fn refusal_6_comes_before_a_short_window() {
    let (mut times, supply) = lists(1, &[(3, 6, 4, 1)]);
    let submitted = times.clone();
    for (count, length) in [(1, 0), (2, 12), (3, 24), (u64::MAX, 36)] {
        let answer = check(&mut times, &supply, count, &vec![9; length]);
        assert_eq!((answer, &times), (Answer::Refused(6), &submitted));
    }
}

#[test]
fn a_job_too_long_for_its_window_is_an_overloaded_set() {
    assert_overload(3, 6, &[(3, 6, 4)]);
    assert_overload(5, 5, &[(5, 5, 1)]);
    assert_overload(5, 3, &[(5, 3, 0)]);
    assert_overload(5, 2, &[(0, 0, 0), (1, 1, 0), (5, 2, 0)]);
    assert_overload(1_000_000, 0, &[(1_000_000, 0, 1_000_000); 256]);
}

#[test]
fn a_is_the_start_of_a_job_that_ends_by_b() {
    assert_overload(5, 3, &[(6, 9, 2), (5, 3, 0)]);
    assert_overload(2, 1, &[(9, 8, 0), (2, 1, 0)]);
    assert_overload(0, 2, &[(1, 4, 1), (0, 2, 3)]);
}

#[test]
fn a_pair_that_takes_in_no_job_is_no_overload() {
    assert_eq!(overload(&times_of(&[(0, 0, 0), (1, 1, 0)])), Answer::None);
    let more_than_few: Vec<_> = (0..40).map(|k| (k, k, 0)).collect();
    assert_eq!(overload(&times_of(&more_than_few)), Answer::None);
}

#[test]
fn ties_of_b_are_all_looked_at() {
    assert_overload(6, 3, &[(4, 3, 0), (6, 3, 0), (5, 3, 1)]);
    assert_overload(2, 3, &[(0, 3, 4), (2, 3, 1), (2, 3, 1)]);
    assert_overload(0, 3, &[(0, 3, 4), (2, 3, 1)]);
    assert_overload(2, 3, &[(0, 3, 4), (2, 3, 2), (1, 3, 2)]);
}

#[test]
fn the_least_end_decides_between_short_windows_and_greater_sets() {
    let greater = [(0, 4, 2); 3];
    assert_overload(0, 4, &[&greater[..], &[(3, 6, 4)]].concat());
    assert_overload(7, 2, &[&greater[..], &[(7, 2, 1)]].concat());
    assert_overload(1, 4, &[&greater[..], &[(1, 4, 9)]].concat());
    assert_overload(0, 4, &[&[(0, 5, 6), (0, 9, 10)], &greater[..]].concat());
}
