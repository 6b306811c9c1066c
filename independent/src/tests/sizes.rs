//! That every full size is asked of every call, and the largest with every
//! answer, the last job moved and named on both sides among them.

use super::calls::kind;
use crate::answers::Answer;
use crate::calls::heads;
use crate::calls::sizes::{calls, SIZES};
use crate::joblist::MOST_JOBS;
use crate::lines::Call;
use crate::random::Random;
use crate::record::{Record, RECORD_WORDS};
use crate::replay::check;
use std::collections::BTreeSet;

fn asked() -> Vec<Call> {
    let mut asked = calls(&mut Random::new(1));
    asked.extend(heads::calls(&mut Random::new(1)));
    asked
}

/// The number of jobs, or of records.
fn size(call: &Call) -> Option<usize> {
    match call {
        Call::Narrow(times, ..)
        | Call::Check(times, ..)
        | Call::Conflict(times, ..)
        | Call::Overload(times)
        | Call::Head(times) => Some(times.est.len()),
        Call::Record(_, log) => Some(log.len() / RECORD_WORDS),
        _ => None,
    }
}

fn kinds_of(jobs: usize) -> BTreeSet<String> {
    let asked = asked().into_iter();
    let those = asked.filter(|call| size(call) == Some(jobs));
    those.map(|call| kind(call.line().as_bytes())).collect()
}

#[test]
fn every_size_is_asked_of_every_call() {
    for jobs in SIZES {
        let kinds = kinds_of(jobs);
        for call in ["narrow", "check", "conflict", "overload", "head", "record"] {
            let begins = |kind: &String| kind.starts_with(call);
            assert!(kinds.iter().any(begins), "{call} {jobs}");
        }
    }
}

#[test]
fn the_largest_size_gets_every_answer() {
    let wanted = [
        "narrow settled, narrow settled 0, narrow clash, narrow clash 0",
        "narrow refused 1, narrow refused 3, narrow refused 5, narrow refused 7",
        "check holds, check holds 0, check clash, check clash 0",
        "check refused 1, check refused 3, check refused 7",
        "check rejected 20, check rejected 21, check rejected 22, check rejected 23",
        "check rejected 24, check rejected 25, check rejected 26, check rejected 27",
        "conflict marked, conflict refused 1, conflict refused 3",
        "conflict refused 6, conflict refused 7, conflict refused 8",
        "overload none, overload overload, overload refused 1, overload refused 3",
        "head settled, head settled 0, head clash, head clash 0",
        "head refused 1, head refused 3",
        "record shown 0, record shown 12",
    ];
    let wanted = wanted.iter().flat_map(|line| line.split(", "));
    assert_eq!(kinds_of(MOST_JOBS), wanted.map(str::to_string).collect());
}

#[test]
fn one_job_more_is_refused() {
    let kinds = kinds_of(MOST_JOBS + 1);
    for call in ["narrow", "check", "conflict", "overload", "head"] {
        let those = kinds.iter().filter(|kind| kind.starts_with(call));
        let refused = ["1", "2"].map(|number| format!("{call} refused {number}"));
        assert!(those.eq(&refused));
    }
}

/// The records that the checker takes in a call, if they end a good log.
fn taken(call: Call) -> Vec<Record> {
    match call {
        Call::Check(mut times, supply, count, log) => {
            match check(&mut times, &supply, count, &log) {
                Answer::Holds(_) | Answer::Clash(..) => log
                    .chunks_exact(RECORD_WORDS)
                    .map(Record::from_words)
                    .collect(),
                _ => Vec::new(),
            }
        }
        _ => Vec::new(),
    }
}

#[test]
fn the_last_job_is_moved_and_named_on_both_sides() {
    for jobs in SIZES
        .into_iter()
        .filter(|&jobs| 2 <= jobs && jobs <= MOST_JOBS)
    {
        let last = jobs - 1;
        let asked = asked().into_iter();
        let those = asked.filter(|call| size(call) == Some(jobs));
        let records: Vec<Record> = those.flat_map(taken).collect();
        for side in [0, 1] {
            let of_side = || records.iter().filter(|record| record.side == side);
            assert!(of_side().any(|record| record.job as usize == last));
            assert!(of_side().any(|record| record.members.has(last)));
        }
    }
}
