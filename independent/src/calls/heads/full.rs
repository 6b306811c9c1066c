//! Lists of so many jobs for the read head, most of them in both orders and with
//! the clock turned.

use super::{backwards, drawn, listed, turned, Triple};
use crate::calls::last;
use crate::joblist::{Times, MOST_TIME};
use crate::random::Random;
use crate::timetable::Side;

/// More links listed backwards are long work: each one takes a round.
const MOST_LINKS: usize = 12;

/// Fixed jobs that follow one another.
fn in_turn(jobs: u32) -> Vec<Triple> {
    (0..jobs).map(|k| (k, k + 1, 1)).collect()
}

/// The last one runs with the one before it.
fn overlapping(jobs: u32) -> Vec<Triple> {
    let mut all = in_turn(jobs);
    if let [.., before, last] = all.as_mut_slice() {
        *last = *before;
    }
    all
}

/// In the midst of each second one is a job that lasts nothing.
fn with_nothing_between(jobs: u32) -> Vec<Triple> {
    let at = |k: u32| (2 * k, 2 * k + 2, 2);
    let all = (0..jobs).map(|k| {
        if k % 2 == 0 {
            at(k)
        } else {
            (2 * k - 1, 2 * k - 1, 0)
        }
    });
    all.collect()
}

/// The last job has to wait for all others, in windows that are so much wider than
/// their work; with 2 none is found to come first.
fn behind_all(jobs: u32, wider: u32) -> Vec<Triple> {
    let Some(others) = jobs.checked_sub(1) else {
        return Vec::new();
    };
    let mut all = vec![(0, others + wider, 1); others as usize];
    all.push((0, 3 * jobs, jobs));
    all
}

/// Half of the others are over long before the last job could start, and the other
/// half alone gives the greatest bound.
fn behind_the_later_half(jobs: u32) -> Vec<Triple> {
    let Some(others) = jobs.checked_sub(1) else {
        return Vec::new();
    };
    let early = others / 2;
    let mut all = vec![(0, jobs, 1); early as usize];
    all.extend(vec![(9 * jobs, 10 * jobs, 1); (others - early) as usize]);
    all.push((9 * jobs, 20 * jobs, jobs));
    all
}

/// Links of two jobs, one of them fixed. The first link pushes its other job behind
/// the fixed one, into the next link, which does the same; so each is moved twice
/// but the first. Those left over last nothing. The last link holds its job or is a
/// tick too short.
fn links(jobs: u32, most: usize, closes: bool) -> Vec<Triple> {
    let count = (jobs / 2).min(most as u32);
    let mut all = Vec::new();
    for at in (0..count).map(|k| 10 * k) {
        let start = if at == 0 { 1 } else { at - 4 };
        let end = if closes && at + 10 == 10 * count {
            at + 8
        } else {
            at + 12
        };
        all.extend([(at + 2, at + 4, 2), (start, end, 5)]);
    }
    let rest = jobs as usize - all.len();
    all.extend(vec![(3, 3, 0); rest]);
    all
}

/// The first job ends by 3, and all others come after it and end by 4.
fn below_zero(jobs: u32) -> Vec<Triple> {
    let mut all = vec![(1, 4, 2); jobs as usize];
    if let Some(first) = all.first_mut() {
        *first = (0, 3, 1);
    }
    all
}

/// Fixed jobs over the whole range of times, the first with room for all of it.
fn over_all_times(jobs: u32) -> Vec<Triple> {
    let each = MOST_TIME / jobs.max(1);
    let at = |k: u32| {
        (
            MOST_TIME - (jobs - k) * each,
            MOST_TIME - (jobs - k - 1) * each,
            each,
        )
    };
    let mut all: Vec<Triple> = (0..jobs).map(at).collect();
    if let Some(first) = all.first_mut() {
        (first.0, first.1) = (0, MOST_TIME);
    }
    all
}

fn shapes(jobs: u32) -> Vec<Vec<Triple>> {
    let all = jobs as usize;
    let mut shapes = vec![in_turn(jobs), overlapping(jobs), with_nothing_between(jobs)];
    shapes.extend([0, 1, 2].map(|wider| behind_all(jobs, wider)));
    shapes.push(behind_the_later_half(jobs));
    shapes.extend([false, true].map(|closes| links(jobs, MOST_LINKS, closes)));
    shapes.push(over_all_times(jobs));
    let alike = [
        (0, 1, 1),
        (0, jobs, 1),
        (0, MOST_TIME, MOST_TIME),
        (5, 5, 0),
    ];
    shapes.extend(alike.map(|job| vec![job; all]));
    shapes.push(below_zero(jobs));
    shapes
}

/// The last job is moved, moves another, closes one or is at fault.
fn of_the_last(jobs: usize) -> Vec<Times> {
    let mut all = Vec::new();
    for pair in last::pairs(jobs) {
        let moved = [Side::Start, Side::End].map(|side| last::leaving(jobs, pair, side));
        all.extend(moved);
        all.push(last::shut_out(jobs, pair));
    }
    all.extend(last::at_fault(jobs));
    all.into_iter().map(|(times, _)| times).collect()
}

pub fn lists(random: &mut Random, jobs: usize) -> Vec<Times> {
    let mut all = of_the_last(jobs);
    for shape in shapes(jobs as u32) {
        let turned = turned(&shape);
        let orders = [&shape, &backwards(&shape), &turned, &backwards(&turned)];
        all.extend(orders.map(|jobs| listed(jobs)));
    }
    for closes in [false, true] {
        let links = links(jobs as u32, jobs, closes);
        all.extend([listed(&links), listed(&turned(&links))]);
    }
    all.extend([(); 3].map(|()| drawn::around(random, jobs as u32)));
    all
}
