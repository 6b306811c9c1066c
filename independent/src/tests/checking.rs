//! The checker's refusals, logs by another hand, and the call that shows one
//! record.

use super::codes::{bench, checked, GOOD};
use super::windows;
use crate::answers::Answer;
use crate::joblist::{lists, Supply};
use crate::record::{shown, Record};
use crate::replay::check;

#[test]
fn a_good_record_holds_and_moves_the_window() {
    let (mut times, supply) = bench();
    assert_eq!(check(&mut times, &supply, 1, &GOOD), Answer::Holds(1));
    assert_eq!(windows(&times)[0], (5, 10));
    assert_eq!(times.est[1..], [2, 2, 4, 4]);
}

#[test]
fn no_claimed_record_holds_whatever_the_log() {
    let (mut times, supply) = bench();
    assert_eq!(
        check(&mut times, &supply, 0, &[u32::MAX; 48]),
        Answer::Holds(0)
    );
    assert_eq!(times, bench().0);
}

#[test]
fn lists_are_refused_before_the_log() {
    let claims = u64::MAX;
    for (number, cap, jobs) in [
        (2, 1, vec![(0, 1, 0, 0); 257]),
        (3, 10_001, vec![]),
        (6, 1, vec![(3, 7, 4, 1)]),
    ] {
        let (mut times, supply) = lists(cap, &jobs);
        assert_eq!(
            check(&mut times, &supply, claims, &[]),
            Answer::Refused(number)
        );
    }
    let (mut times, _) = bench();
    assert_eq!(
        check(&mut times, &Supply::default(), claims, &[]),
        Answer::Refused(1)
    );
}

#[test]
fn a_log_shorter_than_claimed_is_refused() {
    let (mut times, supply) = bench();
    let log = [GOOD, GOOD].concat();
    assert_eq!(check(&mut times, &supply, 2, &GOOD), Answer::Refused(6));
    assert_eq!(check(&mut times, &supply, 3, &log), Answer::Refused(6));
    assert_eq!(
        check(&mut times, &supply, 1 << 62, &log),
        Answer::Refused(6)
    );
    assert_eq!(check(&mut times, &supply, 1, &log), Answer::Holds(1));
}

#[test]
fn a_limit_below_zero_is_no_restriction() {
    let (times, supply) = lists(1, &[(0, 9, 5, 1), (0, 5, 5, 1)]);
    let at_zero = [0, 0, 0, 1, 2, 0, 0, 0, 0, 0, 0, 0];
    assert_eq!(checked(&times, &supply, &[at_zero]), Answer::Holds(1));
}

#[test]
fn other_members_or_another_time_hold_too() {
    let (times, supply) = lists(1, &[(0, 12, 3, 1), (0, 4, 4, 1), (0, 4, 4, 1)]);
    let other_time = [0, 0, 1, 1, 4, 0, 0, 0, 0, 0, 0, 0];
    let other_member = [0, 0, 3, 1, 2, 0, 0, 0, 0, 0, 0, 0];
    let closing = [2, 1, 0, 1, 2, 0, 0, 0, 0, 0, 0, 0];
    assert_eq!(checked(&times, &supply, &[other_time]), Answer::Holds(1));
    let both = [other_time, other_member];
    assert_eq!(checked(&times, &supply, &both), Answer::Holds(2));
    let all = [other_time, other_member, closing];
    assert_eq!(checked(&times, &supply, &all), Answer::Clash(3, 2));
}

#[test]
fn the_first_record_of_a_run_holds_alone() {
    let (mut times, supply) = lists(2, &[(3, 7, 2, 1), (2, 7, 3, 2)]);
    let first = [0, 0, 4, 1, 2, 0, 0, 0, 0, 0, 0, 0];
    assert_eq!(check(&mut times, &supply, 1, &first), Answer::Holds(1));
    assert_eq!(windows(&times), [(5, 7), (2, 7)]);
}

#[test]
fn a_record_is_shown_as_a_part_of_the_log() {
    let log: Vec<u32> = (0..35).collect();
    assert_eq!(shown(0, &log), &log[..12]);
    assert_eq!(shown(1, &log), &log[12..24]);
    for k in [2, 3, 1 << 62, u64::MAX] {
        assert!(shown(k, &log).is_empty());
    }
    assert!(shown(0, &log[..11]).is_empty());
}

#[test]
fn a_record_is_the_same_from_its_words() {
    let words: Vec<u32> = (1..=12).collect();
    let record = Record::from_words(&words);
    assert_eq!(record.words().to_vec(), words);
    assert_eq!(
        record.members.ones() as usize,
        record.members.numbers().len()
    );
}
