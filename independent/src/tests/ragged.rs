//! Logs of every length about one to three records, by hand: narrowing and the
//! checker, beside every other refusal and answer (02, Item 10).

use super::bad_lists;
use super::codes::{bench, GOOD};
use crate::answers::Answer;
use crate::joblist::{lists, Supply, Times};
use crate::record::{shown, RECORD_WORDS};
use crate::replay::check;
use crate::timetable::narrow;
use std::ops::RangeInclusive;

type Quad = (u32, u32, u32, u32);

const MOST_RECORDS: usize = 3;
const LENGTHS: RangeInclusive<usize> = 0..=MOST_RECORDS * RECORD_WORDS + 1;
const CLAIMS: [u64; 7] = [0, 1, 2, 3, 4, 1 << 62, u64::MAX];

/// The records of a log of this length, if there is nothing beside them.
fn whole(length: usize) -> Option<usize> {
    (0..=MOST_RECORDS).find(|records| records * RECORD_WORDS == length)
}

/// Words as a former user may have left them, none of them 0.
fn earlier(length: usize) -> Vec<u32> {
    (1..).map(|word| word * 1_000).take(length).collect()
}

/// Narrowing answers so, and leaves windows and log.
fn assert_left(answer: Answer, times: &Times, supply: &Supply, length: usize) {
    let (mut after, mut log) = (times.clone(), earlier(length));
    assert_eq!(narrow(&mut after, supply, &mut log), answer, "{length}");
    assert_eq!((&after, log), (times, earlier(length)));
}

/// The checker answers so and leaves the windows, whatever is claimed.
fn assert_unchecked(answer: Answer, times: &Times, supply: &Supply, log: &[u32]) {
    for count in CLAIMS {
        let mut after = times.clone();
        assert_eq!(check(&mut after, supply, count, log), answer, "{count}");
        assert_eq!(&after, times);
    }
}

/// Narrowing refuses ragged logs, and answers as said where the log is whole and
/// has so much room.
fn assert_narrowed(cap: u32, jobs: &[Quad], with_room: impl Fn(usize) -> Answer) {
    let (times, supply) = lists(cap, jobs);
    for length in LENGTHS {
        match whole(length) {
            None => assert_left(Answer::Refused(7), &times, &supply, length),
            Some(room) => {
                let answer = narrow(&mut times.clone(), &supply, &mut earlier(length));
                assert_eq!(answer, with_room(room), "{length}");
            }
        }
    }
}

#[test]
fn narrowing_takes_whole_logs_alone() {
    let or_5 = |needed: usize, answer: Answer| {
        move |room: usize| {
            if room < needed {
                Answer::Refused(5)
            } else {
                answer
            }
        }
    };
    assert_narrowed(1, &[], |_| Answer::Settled(0));
    assert_narrowed(1, &[(0, 4, 2, 1); 2], |_| Answer::Settled(0));
    let case_2 = [(2, 10, 3, 2), (2, 7, 3, 2), (2, 8, 4, 2)];
    assert_narrowed(5, &case_2, or_5(1, Answer::Settled(1)));
    assert_narrowed(1, &[(0, 2, 2, 1); 2], or_5(1, Answer::Clash(1, 0)));
    assert_narrowed(1, &[(0, 3, 1, 2)], or_5(3, Answer::Clash(3, 0)));
    assert_narrowed(1, &[(0, 9, 1, 2)], |_| Answer::Refused(5));
}

#[test]
fn a_ragged_log_comes_before_a_short_window() {
    assert_narrowed(1, &[(3, 6, 4, 1)], |_| Answer::Clash(0, 0));
    assert_narrowed(1, &[(0, 3, 1, 2), (1, 0, 0, 0)], |_| Answer::Clash(0, 1));
    let (times, supply) = lists(1, &[(3, 6, 4, 1)]);
    for length in LENGTHS.filter(|&length| whole(length).is_none()) {
        assert_unchecked(Answer::Refused(7), &times, &supply, &earlier(length));
    }
}

/// The checker refuses ragged parts of these records, and answers as said where
/// the part is whole and long enough for what is claimed.
fn assert_checked(times: &Times, supply: &Supply, log: &[u32], claimed: impl Fn(usize) -> Answer) {
    for length in LENGTHS {
        let Some(room) = whole(length) else {
            assert_unchecked(Answer::Refused(7), times, supply, &log[..length]);
            continue;
        };
        for count in CLAIMS {
            let answer = match usize::try_from(count) {
                Ok(count) if count <= room => claimed(count),
                _ => Answer::Refused(6),
            };
            let said = check(&mut times.clone(), supply, count, &log[..length]);
            assert_eq!(said, answer, "{count} {length}");
        }
    }
}

#[test]
fn the_checker_takes_whole_logs_alone() {
    let (times, supply) = bench();
    let log = [GOOD; MOST_RECORDS + 1].concat();
    assert_checked(&times, &supply, &log, |count| match count {
        0..=1 => Answer::Holds(count),
        _ => Answer::Rejected(1, 26),
    });
    let none = [u32::MAX; (MOST_RECORDS + 1) * RECORD_WORDS];
    assert_checked(&times, &supply, &none, |count| match count {
        0 => Answer::Holds(0),
        _ => Answer::Rejected(0, 21),
    });
}

#[test]
fn a_clash_needs_a_whole_log_too() {
    let (times, supply) = lists(1, &[(0, 3, 1, 2)]);
    let mut log = vec![7; 4 * RECORD_WORDS];
    narrow(&mut times.clone(), &supply, &mut log);
    assert_checked(&times, &supply, &log, |count| match count {
        0..=2 => Answer::Holds(count),
        _ => Answer::Clash(count, 0),
    });
    let (times, supply) = lists(1, &[(3, 6, 4, 1)]);
    assert_checked(&times, &supply, &log, |count| match count {
        0 => Answer::Clash(0, 0),
        _ => Answer::Rejected(0, 20),
    });
}

/// Refused so by both calls, whatever the log and whatever is claimed.
fn assert_refused(number: u32, times: &Times, supply: &Supply) {
    for length in LENGTHS {
        let refused = Answer::Refused(number);
        assert_left(refused, times, supply, length);
        assert_unchecked(refused, times, supply, &earlier(length));
    }
}

#[test]
fn refusals_1_to_3_come_before_a_ragged_log() {
    let (good, supply) = lists(1, &[(0, 2, 2, 1), (0, 2, 2, 1), (3, 6, 4, 1)]);
    for (number, times, supply) in bad_lists(&good, &supply) {
        assert_refused(number, &times, &supply);
    }
}

#[test]
fn records_are_shown_whatever_the_remainder() {
    for length in LENGTHS {
        let log = earlier(length);
        for (k, from) in (0..=length).step_by(RECORD_WORDS).enumerate() {
            let part = log.get(from..from + RECORD_WORDS).unwrap_or_default();
            assert_eq!(shown(k as u64, &log), part);
        }
    }
}
