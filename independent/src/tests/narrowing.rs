//! Narrowing: answers found in the source documents, and its refusals with
//! what they leave behind.

use super::{run, windows};
use crate::answers::Answer;
use crate::joblist::{lists, Supply, Times};
use crate::record::RECORD_WORDS;
use crate::timetable::narrow;

#[test]
fn example_1_26_of_document_000() {
    let jobs = [
        (1, 7, 5, 3),
        (3, 10, 4, 2),
        (1, 7, 3, 2),
        (1, 12, 3, 3),
        (1, 7, 3, 2),
    ];
    let (times, supply) = lists(5, &jobs);
    let (answer, narrowed, log) = run(&times, &supply);
    assert_eq!(answer, Answer::Settled(2));
    assert_eq!(
        windows(&narrowed),
        [(1, 7), (3, 10), (1, 7), (6, 12), (1, 7)]
    );
    assert_eq!(log[..12], [3, 0, 3, 1, 1, 0, 0, 0, 0, 0, 0, 0]);
    assert_eq!(log[12..24], [3, 0, 5, 1, 1, 0, 0, 0, 0, 0, 0, 0]);
}

#[test]
fn examples_4_1_and_4_2_of_document_004() {
    let (times, supply) = lists(2, &[(3, 7, 2, 1), (2, 7, 3, 2)]);
    let (answer, narrowed, _) = run(&times, &supply);
    assert_eq!(answer, Answer::Settled(2));
    assert_eq!(windows(&narrowed), [(5, 7), (2, 5)]);

    let (times, supply) = lists(2, &[(3, 7, 2, 1), (2, 7, 3, 2), (5, 7, 2, 2)]);
    let (answer, after, _) = run(&times, &supply);
    assert_eq!(answer, Answer::Clash(2, 0));
    assert_eq!(after, times);
}

#[test]
fn running_example_of_document_002() {
    let (times, supply) = lists(5, &[(2, 10, 3, 2), (2, 7, 3, 2), (2, 8, 4, 2)]);
    let (answer, narrowed, log) = run(&times, &supply);
    assert_eq!(answer, Answer::Settled(1));
    assert_eq!(windows(&narrowed), [(5, 10), (2, 7), (2, 8)]);
    assert_eq!(log[..12], [0, 0, 4, 2, 6, 0, 0, 0, 0, 0, 0, 0]);
}

/// The jobs, the answer and the first three words of each record: jobs that draw
/// more than there is, by themselves or beside one that has to leave them.
#[test]
fn runs_by_hand_on_a_capacity_of_one() {
    type Run<'a> = (&'a [(u32, u32, u32, u32)], usize, usize, &'a [[u32; 3]]);
    let runs: [Run; 5] = [
        (&[(0, 5, 3, 0), (2, 4, 2, 2)], 1, 1, &[[1, 0, 3]]),
        (&[(3, 7, 2, 1), (4, 6, 1, 2)], 2, 1, &[[1, 0, 4], [1, 0, 5]]),
        (&[(1, 4, 1, 1), (3, 5, 2, 2)], 2, 1, &[[0, 1, 3], [1, 0, 4]]),
        (
            &[(2, 5, 1, 1), (3, 6, 3, 2), (5, 8, 3, 1)],
            3,
            1,
            &[[0, 1, 4], [0, 1, 3], [1, 0, 5]],
        ),
        (&[(0, 1, 1, 2), (0, 9, 1, 0)], 1, 0, &[[0, 0, 0]]),
    ];
    for (jobs, count, closed, records) in runs {
        let (times, supply) = lists(1, jobs);
        let (answer, after, log) = run(&times, &supply);
        assert_eq!(answer, Answer::Clash(count, closed));
        assert_eq!(after, times);
        let heads = log.chunks_exact(RECORD_WORDS).map(|record| &record[..3]);
        assert!(heads.take(count).eq(records));
    }
}

/// The lists are refused so, and neither windows nor log are touched.
fn assert_refused(number: u32, times: &Times, supply: &Supply) {
    let mut after = times.clone();
    let mut log = vec![9; 36];
    assert_eq!(
        narrow(&mut after, supply, &mut log),
        Answer::Refused(number)
    );
    assert_eq!(&after, times);
    assert_eq!(log, [9; 36]);
}

#[test]
fn uneven_lists_are_refused_before_all_else() {
    let (good, supply) = lists(1, &[(0, 2, 2, 1); 300]);
    for spoil in [
        (|times: &mut Times| times.est.truncate(299)) as fn(&mut Times),
        |times| times.lct.push(u32::MAX),
        |times| times.dur.truncate(3),
    ] {
        let mut times = good.clone();
        spoil(&mut times);
        assert_refused(1, &times, &supply);
    }
    assert_refused(1, &good, &Supply::default());
}

#[test]
fn too_many_jobs_are_refused_before_great_numbers() {
    let (times, supply) = lists(u32::MAX, &[(u32::MAX, 0, 1, 1); 257]);
    assert_refused(2, &times, &supply);
}

#[test]
fn numbers_above_their_limit_are_refused_before_short_windows() {
    let short = (5, 5, 1, 1);
    for (cap, job) in [
        (10_001, (0, 0, 0, 0)),
        (1, (1_000_001, 0, 0, 0)),
        (1, (0, 1_000_001, 0, 0)),
        (1, (0, 0, u32::MAX, 0)),
        (1, (0, 0, 0, 10_001)),
    ] {
        let (times, supply) = lists(cap, &[short, job]);
        assert_refused(3, &times, &supply);
    }
    assert_refused(3, &Times::default(), &lists(10_001, &[]).1);
}

#[test]
fn without_room_every_word_is_cleared() {
    let (times, supply) = lists(1, &[(0, 3, 1, 2)]);
    for (length, answer, left) in [
        (0, Answer::Refused(5), 0),
        (12, Answer::Refused(5), 0),
        (24, Answer::Refused(5), 0),
        (48, Answer::Clash(3, 0), 7),
    ] {
        let mut after = times.clone();
        let mut log = vec![7; length];
        assert_eq!(narrow(&mut after, &supply, &mut log), answer);
        assert_eq!(after, times);
        assert!(log.iter().skip(36).all(|&word| word == left));
        assert_eq!(log.iter().all(|&word| word == 0), left == 0);
    }
}

#[test]
fn an_empty_log_is_enough_for_no_record() {
    let (mut times, supply) = lists(1, &[(0, 4, 2, 1); 2]);
    assert_eq!(narrow(&mut times, &supply, &mut []), Answer::Settled(0));
}
