//! Detectable precedences for the single read head: the jobs found to come first,
//! or after, the bound they give, by all their sets where the jobs are few, and
//! the moves (02, Items 2 and 3; the rule is 001's, section 2.4.6).

use crate::answers::Answer;
use crate::joblist::{good_jobs, lowest_too_short, Job, Supply, Times};
use crate::rounds::in_rounds;
use crate::timetable::Side;

/// Up to so many jobs every set is looked at; a run looks again for each side of
/// each job in each round.
pub const FEW: usize = 9;

/// A way to the tightest bound that the non-empty sets of some jobs give; none where
/// there are no jobs.
pub type Way = fn(&[Job], Side) -> Option<i64>;

/// The other jobs that are found to come before job i (side 0) or after it (side 1).
fn found(jobs: &[Job], i: usize, side: Side) -> Vec<Job> {
    let moved = jobs[i];
    let comes = |other: &Job| match side {
        Side::Start => moved.e + moved.p > other.l - other.p,
        Side::End => other.e + other.p > moved.l - moved.p,
    };
    let those = (0..jobs.len()).filter(|&j| j != i && jobs[j].p >= 1 && comes(&jobs[j]));
    those.map(|j| jobs[j]).collect()
}

/// Least e plus total p of a set, on side 1 greatest l less total p; none of the
/// empty set.
pub fn value(set: &[Job], side: Side) -> Option<i64> {
    let total: i64 = set.iter().map(|job| job.p).sum();
    match side {
        Side::Start => set.iter().map(|job| job.e).min().map(|e| e + total),
        Side::End => set.iter().map(|job| job.l).max().map(|l| l - total),
    }
}

fn tightest(values: impl Iterator<Item = i64>, side: Side) -> Option<i64> {
    match side {
        Side::Start => values.max(),
        Side::End => values.min(),
    }
}

pub fn by_all_sets(found: &[Job], side: Side) -> Option<i64> {
    let sets = (0..1usize << found.len()).map(|choice| -> Vec<Job> {
        let chosen = |k: &usize| (choice >> k) & 1 == 1;
        (0..found.len()).filter(chosen).map(|k| found[k]).collect()
    });
    tightest(sets.filter_map(|set| value(&set, side)), side)
}

fn lasting(found: &[Job], within: impl Fn(&Job) -> bool) -> i64 {
    let those = found.iter().filter(|job| within(job));
    those.map(|job| job.p).sum()
}

/// Of the sets with the same least e the greatest lasts longest, so it is enough to
/// take, for each job, those that start no earlier (side 1: end no later) than it.
pub fn by_thresholds(found: &[Job], side: Side) -> Option<i64> {
    let values = found.iter().map(|k| match side {
        Side::Start => k.e + lasting(found, |job| job.e >= k.e),
        Side::End => k.l - lasting(found, |job| job.l <= k.l),
    });
    tightest(values, side)
}

/// Job i after the rule of this side has moved it, if it applies.
fn moved(way: Way, jobs: &[Job], i: usize, side: Side) -> Option<Job> {
    let job = jobs[i];
    if job.p == 0 {
        return None;
    }
    let bound = way(&found(jobs, i, side), side)?;
    match side {
        Side::Start if bound > job.e => Some(Job { e: bound, ..job }),
        Side::End if bound < job.l => Some(Job { l: bound, ..job }),
        _ => None,
    }
}

/// Narrows the windows for a head that reads one unit at a time, bounds found in
/// this way.
pub fn head_by(way: Way, times: &mut Times) -> Answer {
    let mut jobs = match good_jobs(times, &Supply::of_one(times.est.len())) {
        Ok(jobs) => jobs,
        Err(number) => return Answer::Refused(number),
    };
    if let Some(j) = lowest_too_short(&jobs) {
        return Answer::Clash(0, j);
    }
    let mut moves = 0;
    let work = in_rounds(jobs.len(), |i, side| {
        let Some(job) = moved(way, &jobs, i, side) else {
            return Ok(false);
        };
        moves += 1;
        jobs[i] = job;
        if job.is_too_short() {
            return Err(i);
        }
        Ok(true)
    });
    match work {
        Ok(()) => {
            times.rewrite(&jobs);
            Answer::Settled(moves)
        }
        Err(closed) => Answer::Clash(moves, closed),
    }
}

/// The call.
pub fn head(times: &mut Times) -> Answer {
    let way = if times.est.len() <= FEW {
        by_all_sets
    } else {
        by_thresholds
    };
    head_by(way, times)
}
