//! Windows too short for their jobs: one or several of them, the last job's,
//! jobs that last nothing, and beside them windows that just fit.

use crate::joblist::{Times, MOST_TIME};
use crate::random::Random;

/// Takes so much from the window of job k that it is too short, by any of its
/// three numbers as far as their limits allow.
fn shorten(random: &mut Random, times: &mut Times, k: usize) {
    let (est, lct, dur) = (times.est[k], times.lct[k], times.dur[k]);
    let by = random.pick(&[1, 1, 1, 2, 9, 1_000, MOST_TIME]);
    match random.below(3) {
        0 => times.est[k] = (lct.saturating_sub(dur) + by).min(MOST_TIME),
        1 => times.lct[k] = (est + dur).saturating_sub(by).min(MOST_TIME),
        _ => times.dur[k] = (lct.saturating_sub(est) + by).min(MOST_TIME),
    }
}

/// Job k lasts nothing, and its latest end comes before its earliest start.
fn turn(random: &mut Random, times: &mut Times, k: usize) {
    let start = times.est[k].max(1);
    times.est[k] = start;
    times.lct[k] = start - random.pick(&[1, 1, 2, start]).min(start);
    times.dur[k] = 0;
}

fn chosen(random: &mut Random, jobs: usize) -> Vec<usize> {
    match random.below(12) {
        0 => (0..jobs).collect(),
        1..=2 => vec![jobs - 1],
        3..=7 => (0..random.between(2, 4))
            .map(|_| random.below(jobs))
            .collect(),
        _ => vec![random.below(jobs)],
    }
}

/// Makes some windows too short in a list where each holds its job.
pub fn put(random: &mut Random, times: &mut Times) {
    let jobs = times.est.len();
    if jobs == 0 {
        return;
    }
    for _ in 0..random.below(3) {
        let k = random.below(jobs);
        times.lct[k] = times.est[k] + times.dur[k];
    }
    for k in chosen(random, jobs) {
        if random.one_in(3) {
            turn(random, times, k);
        } else {
            shorten(random, times, k);
        }
    }
}

/// Adds a job that is too long for what is left after all the others.
pub fn put_behind(random: &mut Random, times: &mut Times) {
    let end = times.lct.iter().max().copied().unwrap_or(0);
    times.push(end, end, random.between(1, 3));
}

/// Gives about half of the jobs the latest end of one of them.
pub fn tie(random: &mut Random, times: &mut Times) {
    if times.lct.is_empty() {
        return;
    }
    let end = random.pick(&times.lct);
    for lct in &mut times.lct {
        if random.one_in(2) {
            *lct = end;
        }
    }
}
