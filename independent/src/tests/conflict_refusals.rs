//! What is refused where jobs would be marked: each refusal, their order, and
//! that the set is all zeros then (02, Item 14).

use super::bad_lists;
use super::conflict::{assert_marked, start, BEHIND};
use crate::answers::Answer;
use crate::conflict::conflict;
use crate::joblist::{lists, Supply, Times};
use crate::record::{Members, RECORD_WORDS};

const CLAIMS: [u64; 5] = [0, 1, 2, 1 << 62, u64::MAX];

fn assert_refused(number: u32, times: &Times, supply: &Supply, count: u64, log: &[u32]) {
    let said = conflict(times, supply, count, log);
    let nothing = (Answer::Refused(number), Members::default());
    assert_eq!(said, nothing, "{count} {}", log.len());
}

fn behind() -> (Times, Supply, Vec<u32>) {
    let (times, supply) = lists(1, &BEHIND);
    (
        times,
        supply,
        [start(1, 1, &[2]), start(0, 3, &[1])].concat(),
    )
}

#[test]
fn the_lists_come_first() {
    let (good, supply, log) = behind();
    let ragged = vec![9; 7];
    for count in CLAIMS {
        for log in [&log, &ragged] {
            for (number, times, supply) in bad_lists(&good, &supply) {
                assert_refused(number, &times, &supply, count, log);
            }
        }
    }
}

#[test]
fn a_ragged_log_comes_next() {
    let (times, supply, log) = behind();
    let short = lists(1, &[(3, 6, 4, 1)]);
    for count in CLAIMS {
        for length in [1, 6, 11, 13, 23] {
            assert_refused(7, &times, &supply, count, &log[..length]);
            assert_refused(7, &short.0, &short.1, count, &log[..length]);
        }
        let longer = [&log[..], &[0]].concat();
        assert_refused(7, &times, &supply, count, &longer);
    }
}

#[test]
fn a_log_shorter_than_claimed_comes_before_what_it_says() {
    let (times, supply, log) = behind();
    for (count, length) in [(3, 24), (2, 12), (1, 0), (1 << 62, 24), (u64::MAX, 24)] {
        assert_refused(6, &times, &supply, count, &log[..length]);
        assert_refused(6, &times, &supply, count, &vec![u32::MAX; length]);
        let (times, supply) = lists(1, &[(3, 6, 4, 1)]);
        assert_refused(6, &times, &supply, count, &log[..length]);
    }
}

#[test]
fn a_log_that_holds_is_refused() {
    let (times, supply, log) = behind();
    assert_refused(8, &times, &supply, 1, &log);
    assert_refused(8, &times, &supply, 1, &log[..RECORD_WORDS]);
    assert_refused(8, &times, &supply, 0, &log);
    assert_refused(8, &times, &supply, 0, &[]);
    let (none, supply) = lists(1, &[]);
    assert_refused(8, &none, &supply, 0, &[]);
    let (just_fits, supply) = lists(1, &[(3, 7, 4, 1)]);
    assert_refused(8, &just_fits, &supply, 0, &[]);
}

/// Each change of one record of a log that is taken, for each of the codes.
#[test]
fn a_rejected_log_is_refused() {
    let (times, supply, log) = behind();
    for (place, word) in [
        (0, 3),
        (1, 2),
        (2, 1_000_001),
        (4, 2),
        (3, 2),
        (1, 1),
        (2, 2),
        (12, 2),
        (13, 7),
        (14, 4),
        (15, 0),
        (16, 4),
    ] {
        let mut spoilt = log.clone();
        spoilt[place] = word;
        assert_refused(8, &times, &supply, 2, &spoilt);
    }
    let swapped = [&log[RECORD_WORDS..], &log[..RECORD_WORDS]].concat();
    assert_refused(8, &times, &supply, 2, &swapped);
    let twice = [&log[..RECORD_WORDS], &log].concat();
    assert_refused(8, &times, &supply, 3, &twice);
}

#[test]
fn a_spare_member_is_refused() {
    let of = lists(1, &[(0, 1, 1, 1); 3]);
    assert_marked(&[0, 2], &of, &[start(0, 0, &[2])]);
    assert_refused(8, &of.0, &of.1, 1, &start(0, 0, &[1, 2]));
}

#[test]
fn nothing_may_follow_the_closing_record() {
    let (times, supply, log) = behind();
    for next in [start(2, 0, &[]), start(0, 3, &[1]), [0; RECORD_WORDS]] {
        let longer = [&log[..], &next].concat();
        assert_refused(8, &times, &supply, 3, &longer);
    }
}

#[test]
fn records_for_a_window_that_is_too_short_are_refused() {
    let (_, supply, log) = behind();
    let mut jobs = BEHIND.to_vec();
    jobs[2] = (0, 2, 3, 1);
    let (times, _) = lists(1, &jobs);
    for count in [1, 2] {
        assert_refused(8, &times, &supply, count, &log);
    }
    let (answer, set) = conflict(&times, &supply, 0, &log);
    assert_eq!((answer, set.numbers()), (Answer::Marked(1), vec![2]));
}
