//! The call that reads a Patterson text: the order of its refusals, what it
//! writes and what it leaves.

use crate::answers::Answer;
use crate::reading::{read, Layout, Lent, Request};

/// Four jobs, two chains between the first and the last; the longest is 9.
const DIAMOND: &str = "4 2\n5 6\n3 1 2 2 3 2\n4 0 1 1 4\n1 2 2 1 4\n2 1 0 0\n";
/// Two jobs of no duration that precede each other.
const CYCLE: &str = "2 1 5 0 1 1 2 0 1 1 1";

const MARK: u32 = 4_000_000_000;

fn lent(jobs: usize, from: usize, to: usize) -> Lent {
    let [est, lct, dur, dem] = [(); 4].map(|()| vec![MARK; jobs]);
    Lent {
        est,
        lct,
        dur,
        dem,
        jobs: vec![MARK; from],
        successors: vec![MARK; to],
    }
}

/// The answer, and that a refusal leaves every list as it was.
fn answered(text: &str, resource: u32, horizon: u32, lent: &mut Lent) -> Answer {
    let before = lent.clone();
    let text = text.as_bytes().to_vec();
    let request = Request {
        layout: Layout::Patterson,
        resource,
        horizon,
        text,
    };
    let answer = read(&request, lent);
    assert!(!matches!(answer, Answer::Refused(_)) || *lent == before);
    answer
}

fn refusal(text: &str, resource: u32, horizon: u32, mut lent: Lent) -> Option<u32> {
    match answered(text, resource, horizon, &mut lent) {
        Answer::Refused(number) => Some(number),
        _ => None,
    }
}

#[test]
fn windows_demands_and_pairs_are_written() {
    let mut lists = lent(4, 6, 5);
    assert_eq!(answered(DIAMOND, 1, 12, &mut lists), Answer::Read(6, 4));
    assert_eq!(lists.est, [0, 3, 3, 7]);
    assert_eq!(lists.lct, [6, 10, 10, 12]);
    assert_eq!(lists.dur, [3, 4, 1, 2]);
    assert_eq!(lists.dem, [2, 1, 2, 0]);
    assert_eq!(lists.jobs, [0, 0, 1, 2, MARK, MARK]);
    assert_eq!(lists.successors, [2, 1, 3, 3, MARK]);
}

#[test]
fn a_horizon_above_the_time_limit_is_31_before_all_else() {
    for horizon in [1_000_001, u32::MAX] {
        assert_eq!(refusal("", 9, horizon, lent(0, 0, 0)), Some(31));
        assert_eq!(refusal(DIAMOND, 0, horizon, lent(4, 4, 4)), Some(31));
    }
    assert_eq!(refusal("", 9, 1_000_000, lent(0, 0, 0)), Some(30));
    assert_eq!(refusal(DIAMOND, 0, 1_000_000, lent(4, 4, 4)), None);
}

#[test]
fn the_text_comes_before_37_38_33_and_34() {
    for (text, refused) in [
        ("2 1 5 0 1 1 2 0 1 1 1 0", 30),
        ("2 1 5 0 1 1 2 0 10001 1 1", 31),
        ("2 1 5 0 1 1 2 0 1 1 3", 32),
    ] {
        assert_eq!(refusal(text, 1, 0, lent(9, 0, 0)), Some(refused));
    }
    let cycle_and_work = "3 1 5 0 1 1 2 0 1 1 1 8 1 0";
    assert_eq!(refusal(cycle_and_work, 1, 0, lent(9, 0, 0)), Some(37));
    assert_eq!(refusal(cycle_and_work, 0, 0, lent(9, 0, 0)), Some(38));
    assert_eq!(refusal(cycle_and_work, 0, 0, lent(3, 2, 2)), Some(33));
    assert_eq!(refusal("1 1 5 8 1 0", 0, 7, lent(1, 0, 0)), Some(34));
}

#[test]
fn a_resource_that_the_text_lacks_is_37() {
    for resource in [2, 3, 1 << 31, u32::MAX] {
        assert_eq!(refusal(DIAMOND, resource, 12, lent(4, 4, 4)), Some(37));
    }
    for text in ["0 0", "1 0 3 0"] {
        assert_eq!(refusal(text, 0, 12, lent(1, 0, 0)), Some(37));
    }
    let mut none = lent(0, 0, 0);
    assert_eq!(answered("0 1 7", 0, 0, &mut none), Answer::Read(7, 0));
}

#[test]
fn a_list_that_does_not_fit_is_38() {
    let spoilt: [fn(&mut Lent, usize); 4] = [
        |lent, length| lent.est.resize(length, MARK),
        |lent, length| lent.lct.resize(length, MARK),
        |lent, length| lent.dur.resize(length, MARK),
        |lent, length| lent.dem.resize(length, MARK),
    ];
    for spoil in spoilt {
        for length in [0, 3, 5, 1_200] {
            let mut lists = lent(4, 4, 4);
            spoil(&mut lists, length);
            assert_eq!(refusal(DIAMOND, 0, 12, lists), Some(38));
        }
    }
    for (from, to) in [(3, 4), (4, 3), (0, 9), (9, 0), (3, 3)] {
        assert_eq!(refusal(DIAMOND, 0, 12, lent(4, from, to)), Some(38));
    }
    for (from, to) in [(4, 4), (4, 9), (9, 4), (7, 6)] {
        assert_eq!(refusal(DIAMOND, 0, 12, lent(4, from, to)), None);
    }
}

#[test]
fn every_cycle_is_33_and_no_other_text() {
    assert_eq!(refusal(CYCLE, 0, 12, lent(2, 2, 2)), Some(33));
    assert_eq!(refusal("1 1 5 0 0 1 1", 0, 12, lent(1, 1, 1)), Some(33));
    assert_eq!(refusal("1 1 5 3 0 1 1", 0, 0, lent(1, 1, 1)), Some(33));
    let behind = "3 1 5 1 0 1 2 1 0 1 3 1 0 1 2";
    assert_eq!(refusal(behind, 0, 12, lent(3, 3, 3)), Some(33));
    assert_eq!(refusal(DIAMOND, 0, 12, lent(4, 4, 4)), None);
}

#[test]
fn equal_pairs_are_written_each_time() {
    let mut lists = lent(2, 2, 2);
    let twice = "2 1 5 1 0 2 2 2 1 0 0";
    assert_eq!(answered(twice, 0, 2, &mut lists), Answer::Read(5, 2));
    assert_eq!((lists.jobs, lists.successors), (vec![0, 0], vec![1, 1]));
    assert_eq!(refusal(twice, 0, 2, lent(2, 1, 2)), Some(38));
}

#[test]
fn the_longest_chain_includes_its_last_job() {
    for (text, jobs, pairs, chain) in [
        (DIAMOND, 4, 4, 9),
        ("1 1 5 3 0 0", 1, 0, 3),
        ("3 1 5 2 0 0 4 0 0 3 0 0", 3, 0, 4),
        ("2 1 5 1000000 0 0 0 0 0", 2, 0, 1_000_000),
    ] {
        assert_eq!(refusal(text, 0, chain, lent(jobs, pairs, pairs)), None);
        let less = refusal(text, 0, chain - 1, lent(jobs, pairs, pairs));
        assert_eq!(less, Some(34));
    }
    let nothing = "2 1 5 0 0 1 2 0 0 0";
    assert_eq!(refusal(nothing, 0, 0, lent(2, 1, 1)), None);
    let long = "2 1 5 1000000 0 1 2 1 0 0";
    assert_eq!(refusal(long, 0, 1_000_000, lent(2, 1, 1)), Some(34));
}
