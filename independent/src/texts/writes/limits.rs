//! Writing 256 jobs and one more, with as many pairs as there can be, and lines
//! whose lists and buffer are as long as a line may have them, or longer.

use crate::joblist::MOST_JOBS;
use crate::lines::{Call, LONGEST_JOB_LIST, LONGEST_PAIR_LIST, LONGEST_TEXT};
use crate::texts::writes::small::small;
use crate::texts::writes::{about_the_need, written};
use crate::writing::Listing;

fn idle(dur: usize, dem: usize, jobs: usize, successors: usize) -> Listing {
    let [dur, dem, jobs, successors] = [dur, dem, jobs, successors].map(|length| vec![0; length]);
    Listing {
        cap: 0,
        dur,
        dem,
        jobs,
        successors,
    }
}

/// Every pair of all jobs, those of a job with itself too, and one more.
fn every_pair() -> [Listing; 2] {
    let numbers = 0..MOST_JOBS as u32;
    let pairs = numbers.clone();
    let pairs = pairs.flat_map(|job| numbers.clone().map(move |other| (job, other)));
    let mut pairs: Vec<(u32, u32)> = pairs.collect();
    let all = small(MOST_JOBS, &pairs);
    pairs.push((MOST_JOBS as u32, 0));
    [all, small(MOST_JOBS, &pairs)]
}

/// A chain through all jobs, and the same with a pair more that closes it.
fn chain(jobs: u32) -> [Listing; 2] {
    let mut pairs: Vec<(u32, u32)> = (1..jobs).map(|job| (job - 1, job)).collect();
    let open = small(jobs as usize, &pairs);
    pairs.push((jobs - 1, 0));
    [open, small(jobs as usize, &pairs)]
}

pub fn lines() -> Vec<Vec<u8>> {
    let (jobs, pairs) = (LONGEST_JOB_LIST, LONGEST_PAIR_LIST);
    let mut calls: Vec<Call> = Vec::new();
    for jobs in [MOST_JOBS - 1, MOST_JOBS, MOST_JOBS + 1] {
        calls.extend(about_the_need(&small(jobs, &[])));
        let chains = chain(jobs as u32);
        calls.extend(chains.iter().flat_map(about_the_need));
    }
    calls.extend(every_pair().iter().map(|listing| written(listing, 20)));
    for lengths in [
        [jobs, jobs, 0, 0],
        [jobs, 0, 0, 0],
        [jobs + 1, 0, 0, 0],
        [0, jobs + 1, 0, 0],
        [0, 0, pairs, pairs],
        [1, 1, pairs, pairs],
        [1, 1, pairs, 0],
        [0, 0, pairs + 1, 0],
        [0, 0, 0, pairs + 1],
    ] {
        let [dur, dem, jobs, successors] = lengths;
        calls.push(written(&idle(dur, dem, jobs, successors), 20));
    }
    for length in [LONGEST_TEXT, LONGEST_TEXT + 1] {
        calls.push(Call::Write(small(3, &[(0, 1)]), vec![7; length]));
    }
    let lines = calls.iter().map(|call| call.line().into_bytes());
    lines.chain([b"write 5 0 0 0 0 1 256".to_vec()]).collect()
}
