//! Lists in which the last job is moved, is why another one is, or is what is
//! wrong, with as many others as one likes.

use crate::calls::faults;
use crate::joblist::{lists, Supply, Times, MOST_DEMAND, MOST_TIME};
use crate::timetable::Side;

pub type Quad = (u32, u32, u32, u32);

/// So many jobs that each surely run at a time of their own, and these among
/// them that have to do with one another before that.
pub fn with(jobs: usize, those: &[(usize, Quad)]) -> (Times, Supply) {
    let at = |k: u32| (20 + 2 * k, 21 + 2 * k, 1, 1);
    let mut all: Vec<Quad> = (0..jobs as u32).map(at).collect();
    those.iter().for_each(|&(k, job)| all[k] = job);
    lists(1, &all)
}

/// A job and another one, one of which is the last.
pub fn pairs(jobs: usize) -> Vec<(usize, usize)> {
    match jobs {
        0..=1 => Vec::new(),
        _ => vec![(jobs - 1, 0), (0, jobs - 1)],
    }
}

/// The first job has to leave the other one, at its start or its end.
pub fn leaving(jobs: usize, (moved, other): (usize, usize), side: Side) -> (Times, Supply) {
    let sure = match side {
        Side::Start => (0, 2, 2, 1),
        Side::End => (7, 9, 2, 1),
    };
    with(jobs, &[(moved, (0, 9, 3, 1)), (other, sure)])
}

/// The first job has no time left beside the other one.
pub fn shut_out(jobs: usize, (moved, other): (usize, usize)) -> (Times, Supply) {
    with(jobs, &[(moved, (0, 4, 2, 1)), (other, (0, 3, 3, 1))])
}

/// The second of the jobs named has to start behind the third, and takes the only
/// time of the first then.
pub fn behind(jobs: usize, [a, b, c]: [usize; 3]) -> (Times, Supply) {
    let (of_a, of_b, of_c) = ((3, 4, 1, 1), (0, 5, 3, 1), (0, 2, 2, 1));
    with(jobs, &[(a, of_a), (b, of_b), (c, of_c)])
}

/// Each of the jobs named but the first has to start behind the next, and then is
/// in the way of the one before it; the first has no other time.
pub fn in_a_row(jobs: usize, [a, b, c, d]: [usize; 4]) -> (Times, Supply) {
    let (of_a, of_b, of_c) = ((6, 7, 1, 1), (3, 8, 3, 1), (1, 6, 3, 1));
    with(jobs, &[(a, of_a), (b, of_b), (c, of_c), (d, (0, 2, 2, 1))])
}

/// As the three jobs behind one another; the fourth moves the third, and may do so
/// after the third has moved the second.
pub fn moved_later(jobs: usize, [a, b, c, d]: [usize; 4]) -> (Times, Supply) {
    let (of_a, of_b, of_c) = ((3, 4, 1, 1), (0, 5, 3, 1), (0, 3, 2, 1));
    with(jobs, &[(a, of_a), (b, of_b), (c, of_c), (d, (0, 1, 1, 1))])
}

/// So many jobs with the same only time, of which all but one could have it.
pub fn one_too_many(jobs: usize) -> (Times, Supply) {
    lists((jobs as u32).saturating_sub(1), &vec![(0, 1, 1, 1); jobs])
}

/// The last job draws more than there is, and cannot run at all.
pub fn overdrawn(jobs: usize) -> (Times, Supply) {
    let last = jobs.checked_sub(1);
    let that = last.map(|last| (last, (0, 3, 1, 2)));
    with(jobs, that.as_slice())
}

/// Lists in which only the last job is not as it should be: too short for its
/// window, a number too great, a number missing.
pub fn at_fault(jobs: usize) -> Vec<(Times, Supply)> {
    let Some(last) = jobs.checked_sub(1) else {
        return Vec::new();
    };
    let mut all: Vec<(Times, Supply)> = [
        (3, 5, 3, 1),
        (5, 4, 0, 0),
        (MOST_TIME + 1, 9, 1, 1),
        (0, MOST_TIME + 1, 1, 1),
        (0, 9, MOST_TIME + 1, 1),
        (0, 9, 1, MOST_DEMAND + 1),
    ]
    .map(|job| with(jobs, &[(last, job)]))
    .to_vec();
    let whole = with(jobs, &[]);
    all.extend([0, 1, 2, 3].map(|list| {
        let (mut times, mut supply) = whole.clone();
        faults::lists(&mut times, &mut supply)[list].pop();
        (times, supply)
    }));
    all
}
