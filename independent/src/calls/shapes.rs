//! Shapes of job lists: how many jobs there are and what their numbers are
//! drawn from.

use crate::joblist::MOST_JOBS;
use crate::random::Random;

/// What the numbers of a list are drawn from; each is the greatest value.
pub struct Shape {
    pub jobs: usize,
    pub start: u32,
    pub duration: u32,
    pub slack: u32,
    pub demand: u32,
    pub cap: u32,
}

fn small(random: &mut Random) -> Shape {
    Shape {
        jobs: random.below(9),
        start: random.between(0, 12),
        duration: random.between(1, 7),
        slack: random.between(0, 8),
        demand: random.between(1, 4),
        cap: random.between(0, 7),
    }
}

fn middling(random: &mut Random) -> Shape {
    let jobs = random.between(5, 40);
    let cap = random.between(2, 12);
    Shape {
        jobs: jobs as usize,
        start: random.between(jobs / 2, jobs * 8 / cap + 10),
        duration: random.between(1, 6),
        slack: random.between(0, 9),
        demand: random.between(1, 3),
        cap,
    }
}

fn large(random: &mut Random) -> Shape {
    let most = MOST_JOBS as u32;
    let any = random.between(1, most);
    let jobs = random.pick(&[any, any, any, any, any, most]);
    of(random, jobs)
}

/// For so many jobs.
pub fn of(random: &mut Random, jobs: u32) -> Shape {
    let cap = random.between(4, 14);
    Shape {
        jobs: jobs as usize,
        start: random.between(jobs * 3 / cap, jobs * 12 / cap + 10),
        duration: random.between(1, 3),
        slack: random.between(0, 6),
        demand: random.between(1, 3),
        cap,
    }
}

/// Few jobs: every tick of theirs is looked at.
fn long(random: &mut Random) -> Shape {
    let jobs = random.between(1, 3);
    let duration = random.pick(&[40_000, 150_000 / jobs, 300_000 / jobs]);
    Shape {
        jobs: jobs as usize,
        start: random.pick(&[0, duration / 2, duration * 2]),
        duration,
        slack: random.pick(&[0, duration / 3, duration]),
        demand: 3,
        cap: random.between(2, 6),
    }
}

pub fn any(random: &mut Random) -> Shape {
    match random.below(400) {
        0..=1 => long(random),
        2..=36 => large(random),
        37..=120 => middling(random),
        _ => small(random),
    }
}

/// For one job at a time; many times are equal.
pub fn for_one(random: &mut Random) -> Shape {
    let jobs = match random.below(100) {
        0..=1 => random.between(1, MOST_JOBS as u32),
        2..=14 => random.between(13, 40),
        _ => random.between(0, 12),
    };
    for_one_of(random, jobs)
}

/// For one job at a time, and so many jobs.
pub fn for_one_of(random: &mut Random, jobs: u32) -> Shape {
    let per_job = random.between(0, 3);
    Shape {
        jobs: jobs as usize,
        start: jobs * per_job,
        duration: random.between(0, 3),
        slack: random.between(0, jobs * 2),
        demand: 1,
        cap: 1,
    }
}
