//! Code 27 of the checker by logs made by hand (02, Item 7).

use super::codes::checked;
use crate::answers::Answer;
use crate::joblist::{lists, Supply, Times};
use crate::record::RECORD_WORDS;

/// Four jobs that draw one each from 0 to 1 or a while longer, and a job that
/// draws the whole capacity and has to leave them; one draws nothing, one draws
/// elsewhere.
fn crowd() -> (Times, Supply) {
    let jobs = [
        (0, 20, 2, 5),
        (0, 1, 1, 1),
        (0, 2, 2, 1),
        (0, 1, 1, 1),
        (0, 2, 2, 1),
        (0, 1, 1, 0),
        (5, 6, 1, 1),
    ];
    lists(5, &jobs)
}

/// The record that moves job 0 of the crowd at time 0 for these members.
fn leaving(members: u32) -> [u32; RECORD_WORDS] {
    [0, 0, 0, members.count_ones(), members, 0, 0, 0, 0, 0, 0, 0]
}

fn assert_in_crowd(answer: Answer, records: &[[u32; RECORD_WORDS]]) {
    let (times, supply) = crowd();
    assert_eq!(checked(&times, &supply, records), answer);
}

#[test]
fn code_27_exactly_for_a_spare_member() {
    for k in 1..=4 {
        assert_in_crowd(Answer::Holds(1), &[leaving(1 << k)]);
    }
    assert_in_crowd(Answer::Rejected(0, 24), &[leaving(0)]);
    for members in [0b110, 0b1010, 0b10100, 0b1110, 0b11110] {
        assert_in_crowd(Answer::Rejected(0, 27), &[leaving(members)]);
    }
}

#[test]
fn code_27_has_the_place_of_its_record() {
    let later = |members: u32| [0, 0, 1, members.count_ones(), members, 0, 0, 0, 0, 0, 0, 0];
    let first = leaving(1 << 3);
    assert_in_crowd(Answer::Holds(2), &[first, later(1 << 4)]);
    assert_in_crowd(Answer::Rejected(1, 27), &[first, later(0b10100)]);
    assert_in_crowd(Answer::Rejected(0, 27), &[leaving(0b110), later(0b10100)]);
}

#[test]
fn code_27_for_one_spare_member_among_needed_ones() {
    let (times, supply) = lists(
        10,
        &[(0, 9, 1, 5), (0, 1, 1, 2), (0, 1, 1, 6), (0, 1, 1, 2)],
    );
    let with = |members: u32| checked(&times, &supply, &[leaving(members)]);
    assert_eq!(with(0b0100), Answer::Holds(1));
    assert_eq!(with(0b1010), Answer::Rejected(0, 24));
    for members in [0b0110, 0b1100, 0b1110] {
        assert_eq!(with(members), Answer::Rejected(0, 27));
    }
}

#[test]
fn what_just_fits_the_capacity_is_not_exceeding_it() {
    let jobs = [(0, 9, 1, 3), (0, 1, 1, 1), (0, 1, 1, 1), (0, 1, 1, 1)];
    let (times, supply) = lists(5, &jobs);
    assert_eq!(
        checked(&times, &supply, &[leaving(0b1110)]),
        Answer::Holds(1)
    );
    let (times, supply) = lists(4, &jobs);
    assert_eq!(
        checked(&times, &supply, &[leaving(0b1110)]),
        Answer::Rejected(0, 27)
    );
    assert_eq!(
        checked(&times, &supply, &[leaving(0b1100)]),
        Answer::Holds(1)
    );
}

#[test]
fn any_member_is_spare_where_the_moved_job_alone_exceeds_the_capacity() {
    let (times, supply) = lists(1, &[(0, 9, 1, 2), (0, 1, 1, 1)]);
    assert_eq!(checked(&times, &supply, &[leaving(0)]), Answer::Holds(1));
    assert_eq!(
        checked(&times, &supply, &[leaving(2)]),
        Answer::Rejected(0, 27)
    );
}

#[test]
fn earlier_codes_come_before_a_spare_member() {
    let all = leaving(0b11110);
    let with = |place: usize, word: u32| {
        let mut record = all;
        record[place] = word;
        record
    };
    for (code, record) in [
        (21, with(0, 7)),
        (21, with(1, 2)),
        (21, with(2, 1_000_001)),
        (22, with(0, 5)),
        (22, leaving(0b11111)),
        (22, leaving(0b111110)),
        (22, leaving(0b10011110)),
        (23, with(3, 1)),
        (25, leaving(0b1011110)),
        (25, with(2, 1)),
        (25, with(1, 1)),
        (27, all),
    ] {
        assert_in_crowd(Answer::Rejected(0, code), &[record]);
    }
    assert_in_crowd(Answer::Rejected(1, 26), &[leaving(1 << 2), all]);
    let (times, supply) = lists(2, &[(0, 1, 1, 1), (0, 1, 1, 1), (0, 1, 1, 2)]);
    let closing = [0, 0, 0, 1, 4, 0, 0, 0, 0, 0, 0, 0];
    assert_eq!(checked(&times, &supply, &[closing]), Answer::Clash(1, 0));
    assert_eq!(
        checked(&times, &supply, &[closing, leaving(0b110)]),
        Answer::Rejected(1, 20)
    );
}
