//! The overload check for a resource that serves one job at a time: all sets
//! where they are few, and the pair by its definition (01, "One job at a
//! time"; 02, Item 3).

use crate::answers::Answer;
use crate::joblist::{good_jobs, Job, Supply, Times};

/// Up to so many jobs every set is looked at.
const FEW: usize = 12;

/// Its least e plus its total p exceeds its greatest l.
fn is_overloaded(set: &[Job]) -> bool {
    let least_e = set.iter().map(|job| job.e).min();
    let greatest_l = set.iter().map(|job| job.l).max();
    let total_p: i64 = set.iter().map(|job| job.p).sum();
    match (least_e, greatest_l) {
        (Some(e), Some(l)) => e + total_p > l,
        _ => false,
    }
}

pub fn some_set_is_overloaded(jobs: &[Job]) -> bool {
    (1..1usize << jobs.len()).any(|choice| {
        let chosen = |k: &usize| (choice >> k) & 1 == 1;
        let set: Vec<Job> = (0..jobs.len()).filter(chosen).map(|k| jobs[k]).collect();
        is_overloaded(&set)
    })
}

/// There are jobs with e ≥ a and l ≤ b, and they last longer than b − a, which
/// lies below zero where a exceeds b.
fn lasts_longer(jobs: &[Job], a: i64, b: i64) -> bool {
    let mut found = false;
    let mut total = 0;
    for job in jobs {
        if job.e >= a && job.l <= b {
            found = true;
            total += job.p;
        }
    }
    found && total > b - a
}

/// The least latest end b, and for it the greatest earliest start a, for which
/// the jobs last too long.
pub fn pair(jobs: &[Job]) -> Option<(i64, i64)> {
    let mut starts: Vec<i64> = jobs.iter().map(|job| job.e).collect();
    let mut ends: Vec<i64> = jobs.iter().map(|job| job.l).collect();
    starts.sort_unstable();
    starts.dedup();
    ends.sort_unstable();
    ends.dedup();
    for &b in &ends {
        for &a in starts.iter().rev() {
            if lasts_longer(jobs, a, b) {
                return Some((a, b));
            }
        }
    }
    None
}

pub fn overload(times: &Times) -> Answer {
    let jobs = match good_jobs(times, &Supply::of_one(times.est.len())) {
        Ok(jobs) => jobs,
        Err(number) => return Answer::Refused(number),
    };
    if jobs.len() <= FEW && !some_set_is_overloaded(&jobs) {
        return Answer::None;
    }
    match pair(&jobs) {
        Some((a, b)) => Answer::Overload(a, b),
        None => {
            assert!(jobs.len() > FEW, "an overloaded set without a pair");
            Answer::None
        }
    }
}
