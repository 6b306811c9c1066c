//! The writer's members without the spare ones, by hand (02, Item 7).

use super::run;
use crate::answers::Answer;
use crate::joblist::lists;
use crate::record::{Record, RECORD_WORDS};

type Quad = (u32, u32, u32, u32);

fn records(count: usize, log: &[u32]) -> Vec<Record> {
    let places = log.chunks_exact(RECORD_WORDS).take(count);
    places.map(Record::from_words).collect()
}

/// The records of a run that settles or clashes.
pub fn written(answer: Answer, log: &[u32]) -> Vec<Record> {
    match answer {
        Answer::Settled(count) | Answer::Clash(count, _) => records(count, log),
        _ => panic!("a good list with room"),
    }
}

/// The members of each record of the run.
fn members(cap: u32, jobs: &[Quad]) -> Vec<Vec<usize>> {
    let (times, supply) = lists(cap, jobs);
    let (answer, _, log) = run(&times, &supply);
    let records = written(answer, &log);
    assert!(records.iter().all(|r| r.count == r.members.ones()));
    records.iter().map(|r| r.members.numbers()).collect()
}

/// The members of the one record that moves a job of this demand out of time 0,
/// where jobs of these demands run.
fn left(cap: u32, demand: u32, others: &[u32]) -> Vec<usize> {
    let still = others.iter().map(|&r| (0, 1, 1, r));
    let jobs: Vec<Quad> = [(0, 9, 1, demand)].into_iter().chain(still).collect();
    let members = members(cap, &jobs);
    assert_eq!(members.len(), 1);
    members[0].clone()
}

#[test]
fn the_demands_named_shrink_as_members_drop() {
    let (moved, two, one) = ((0, 9, 1, 1), (0, 1, 1, 2), (0, 1, 1, 1));
    assert_eq!(members(1, &[moved, two, one]), [vec![2], vec![]]);
    assert_eq!(members(1, &[moved, one, two]), [vec![2], vec![2]]);
    assert_eq!(left(2, 2, &[1, 1]), [2]);
}

#[test]
fn members_are_dropped_by_rising_number() {
    assert_eq!(left(5, 5, &[1, 1, 1, 1]), [4]);
    assert_eq!(left(10, 5, &[2, 6, 2]), [2]);
    assert_eq!(left(10, 5, &[6, 2, 2]), [1]);
    assert_eq!(left(10, 5, &[2, 2, 6]), [3]);
    assert_eq!(left(10, 9, &[6, 2, 2]), [3]);
    assert_eq!(left(10, 9, &[2, 2, 6]), [3]);
    assert_eq!(left(10, 3, &[3, 1, 1, 4]), [1, 3, 4]);
    assert_eq!(left(10, 4, &[1, 3, 1, 3, 1]), [2, 4, 5]);
}

#[test]
fn what_just_fits_the_capacity_is_not_exceeding_it() {
    assert_eq!(left(5, 3, &[1, 1, 1]), [1, 2, 3]);
    assert_eq!(left(5, 4, &[1, 1, 1]), [2, 3]);
    assert_eq!(left(5, 5, &[1, 1, 1]), [3]);
    assert_eq!(left(6, 3, &[3, 3]), [1, 2]);
    assert_eq!(left(6, 4, &[3, 3]), [2]);
    assert_eq!(left(5, 3, &[1, 3, 1]), [2]);
    assert_eq!(left(5, 2, &[1, 3, 1]), [2, 3]);
    assert_eq!(left(5, 1, &[1, 3, 1]), [1, 2, 3]);
    assert_eq!(left(10_000, 10_000, &[1, 9_998, 1]), [3]);
}

#[test]
fn jobs_that_draw_nothing_are_neither_named_nor_counted() {
    assert_eq!(left(5, 5, &[0, 2, 0, 2, 0]), [4]);
    assert_eq!(left(5, 2, &[0, 2, 0, 2, 0]), [2, 4]);
}

#[test]
fn a_job_that_exceeds_the_capacity_alone_moves_for_no_other() {
    let alone = [vec![], vec![], vec![]];
    assert_eq!(members(1, &[(0, 3, 1, 2), (0, 1, 1, 1)]), alone);
    assert_eq!(members(0, &[(0, 3, 1, 1), (1, 2, 1, 0)]), alone);
}

#[test]
fn side_1_drops_members_too() {
    let jobs = [(0, 9, 2, 3), (7, 9, 2, 2), (8, 9, 1, 1), (7, 9, 2, 1)];
    let (times, supply) = lists(4, &jobs);
    let (answer, _, log) = run(&times, &supply);
    assert_eq!(answer, Answer::Settled(1));
    assert_eq!(log[..12], [0, 1, 7, 1, 2, 0, 0, 0, 0, 0, 0, 0]);
}

#[test]
fn every_word_of_the_set_can_lose_its_members() {
    let mut jobs = vec![(0, 1, 1, 1); 255];
    jobs.push((0, 9, 1, 1));
    assert_eq!(members(255, &jobs), [(0..255).collect::<Vec<usize>>()]);
    jobs[255].3 = 100;
    assert_eq!(members(255, &jobs), [(99..255).collect::<Vec<usize>>()]);
    jobs[255].3 = 255;
    assert_eq!(members(255, &jobs), [[254]]);
    jobs[3].3 = 9_000;
    assert_eq!(members(9_254, &jobs), [[3]]);
}
