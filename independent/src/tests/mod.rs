//! Tests: the runs on the record, answers from elsewhere, every refusal and
//! code by hand, and the definitions against brute force on small lists and
//! networks.

mod calls;
mod cases;
mod checking;
mod codes;
mod conflict;
mod conflict_calls;
mod conflict_lines;
mod conflict_refusals;
mod conflict_runs;
mod demands;
mod head;
mod head_calls;
mod head_demands;
mod head_lines;
mod head_rows;
mod head_runs;
mod layouts;
mod lean;
mod lean_calls;
mod lean_runs;
mod lines;
mod marks;
mod names;
mod narrowing;
mod overload;
mod paths;
mod patterson;
mod psplib;
mod psplib_headings;
mod ragged;
mod ragged_calls;
mod reading;
mod short;
mod short_calls;
mod sizes;
mod spare;
mod text_lines;
mod texts;
mod waiting;
mod writing;

use crate::answers::Answer;
use crate::joblist::{lists, Supply, Times};
use crate::random::Random;
use crate::reading::Lent;
use crate::record::RECORD_WORDS;
use crate::timetable::narrow;

fn windows(times: &Times) -> Vec<(u32, u32)> {
    let pairs = times.est.iter().zip(&times.lct);
    pairs.map(|(&e, &l)| (e, l)).collect()
}

/// Lists for so many jobs and pairs, each word of them `word`.
fn lent(jobs: usize, pairs: usize, word: u32) -> Lent {
    let jobs = vec![word; jobs];
    let pairs = vec![word; pairs];
    Lent {
        est: jobs.clone(),
        lct: jobs.clone(),
        dur: jobs.clone(),
        dem: jobs,
        jobs: pairs.clone(),
        successors: pairs,
    }
}

/// Few jobs in a short time, many of them crowded, a few too long for their
/// windows.
fn small_lists(random: &mut Random) -> (Times, Supply) {
    let mut jobs = Vec::new();
    for _ in 0..random.between(1, 4) {
        let e = random.between(0, 5);
        let p = random.between(0, 4);
        let mut l = e + p + random.between(0, 3);
        if random.one_in(20) {
            l = random.between(0, e + p);
        }
        jobs.push((e, l, p, random.between(0, 3)));
    }
    lists(random.between(0, 4), &jobs)
}

/// Lists that refusals 1 to 3 turn away, each with its number: lists of unequal
/// length made from good ones, too many jobs, and each kind of number too great,
/// beside a window that is too short.
fn bad_lists(good: &Times, supply: &Supply) -> Vec<(u32, Times, Supply)> {
    let mut bad = vec![(1, good.clone(), Supply::default())];
    for spoil in [
        (|times: &mut Times| times.est.truncate(2)) as fn(&mut Times),
        |times| times.lct.push(u32::MAX),
        |times| times.dur.truncate(0),
    ] {
        let mut times = good.clone();
        spoil(&mut times);
        bad.push((1, times, supply.clone()));
    }
    let (times, supply) = lists(u32::MAX, &[(3, 6, u32::MAX, 1); 257]);
    bad.push((2, times, supply));
    for (cap, job) in [
        (1, (1_000_001, 0, 0, 0)),
        (1, (0, 1_000_001, 0, 0)),
        (1, (3, 6, 1_000_001, 0)),
        (1, (3, 6, 4, 10_001)),
        (10_001, (3, 6, 4, 1)),
    ] {
        let (times, supply) = lists(cap, &[(3, 6, 4, 1), job]);
        bad.push((3, times, supply));
    }
    bad
}

/// The run with room for as many records as it may need.
fn run(times: &Times, supply: &Supply) -> (Answer, Times, Vec<u32>) {
    let mut narrowed = times.clone();
    let mut log = vec![0; 100 * RECORD_WORDS];
    let answer = narrow(&mut narrowed, supply, &mut log);
    (answer, narrowed, log)
}
