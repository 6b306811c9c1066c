//! Small texts drawn from a seed, with lists, a resource and a horizon for
//! each that fit more often than not.

use crate::joblist::{MOST_DEMAND, MOST_JOBS, MOST_TIME};
use crate::lines::Call;
use crate::project::{Project, ProjectJob};
use crate::random::Random;
use crate::reading::Layout;
use crate::texts::faults;
use crate::texts::lent::{call as made_call, exact, variations, Lengths};
use crate::texts::whole::{needs, Needs};
use crate::tokens::MOST_RESOURCES;

/// Mostly up to `usual`, once in a while the limit or one more.
fn number(random: &mut Random, usual: u32, limit: u32) -> u32 {
    if random.one_in(250) {
        limit + random.between(0, 1)
    } else {
        random.between(0, usual)
    }
}

fn demands(random: &mut Random, resources: usize) -> Vec<u32> {
    let demand = |_| number(random, 9, MOST_DEMAND);
    (0..resources).map(demand).collect()
}

/// Up to three of the jobs behind, the same one more than once where it comes so.
fn successors(random: &mut Random, behind: &[usize], jobs: usize) -> Vec<usize> {
    if behind.is_empty() {
        return Vec::new();
    }
    let count = random.below(4).min(jobs);
    (0..count).map(|_| random.pick(behind)).collect()
}

/// A pair between any two jobs, which may close a cycle.
fn any_pair(random: &mut Random, project: &mut Project) {
    let jobs = project.jobs.len();
    if jobs > 0 {
        let (k, s) = (random.below(jobs), random.below(jobs));
        project.jobs[k].successors.push(s);
    }
}

fn sizes(random: &mut Random) -> (usize, usize) {
    let jobs = match random.below(200) {
        0 => MOST_JOBS,
        1..=2 => MOST_JOBS + 1,
        3..=13 => random.below(30),
        _ => random.below(7),
    };
    let resources = match random.below(40) {
        0 => MOST_RESOURCES,
        1 => MOST_RESOURCES + 1,
        2..=3 => 0,
        _ => 1 + random.below(3),
    };
    (jobs, resources)
}

pub fn project(random: &mut Random) -> Project {
    let (jobs, resources) = sizes(random);
    let longest = random.pick(&[0, 1, 3, 6, 6, 40, MOST_TIME / 4]);
    let order = match random.below(3) {
        0 => (0..jobs).collect(),
        1 => (0..jobs).rev().collect(),
        _ => random.order(jobs),
    };
    let mut project = Project {
        caps: demands(random, resources),
        jobs: vec![ProjectJob::default(); jobs],
    };
    for (place, &k) in order.iter().enumerate() {
        project.jobs[k] = ProjectJob {
            duration: number(random, longest, MOST_TIME),
            demands: demands(random, resources),
            successors: successors(random, &order[place + 1..], jobs),
        };
    }
    if random.one_in(5) {
        any_pair(random, &mut project);
    }
    project
}

fn resource(random: &mut Random, resources: u32) -> u32 {
    if random.one_in(9) {
        random.pick(&[resources, resources + 1, 1 << 31, u32::MAX])
    } else {
        random.between(0, resources.saturating_sub(1))
    }
}

fn horizon(random: &mut Random, chain: u32) -> u32 {
    match random.below(16) {
        0..=2 => chain.saturating_sub(1),
        3..=7 => chain,
        8..=9 => chain + 1,
        10..=11 => chain + random.between(0, 50),
        12 => random.between(0, chain),
        13..=14 => MOST_TIME,
        _ => random.pick(&[0, MOST_TIME + 1, 1 << 31, u32::MAX]),
    }
}

fn lengths(random: &mut Random, asked: Lengths) -> Lengths {
    if random.one_in(6) {
        return random.pick(&variations(asked));
    }
    let mut lengths = asked;
    if random.one_in(3) {
        lengths[4] += random.below(4);
        lengths[5] += random.below(4);
    }
    lengths
}

/// A call for the text, with what it asks for or something near it.
pub fn call_for(layout: Layout, random: &mut Random, text: &[u8]) -> Call {
    let asked = needs(layout, text).unwrap_or(Needs {
        lengths: exact(random.below(4), random.below(4)),
        resources: 1,
        chain: None,
    });
    let chain = asked.chain.unwrap_or(random.between(0, 20));
    let resource = resource(random, asked.resources);
    let horizon = horizon(random, chain);
    let lengths = lengths(random, asked.lengths);
    made_call(layout, text, resource, horizon, lengths)
}

pub fn call(random: &mut Random) -> Call {
    let project = project(random);
    let text = faults::text(random, &project);
    call_for(Layout::Patterson, random, &text)
}
