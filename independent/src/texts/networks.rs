//! Calls for networks of up to 256 jobs: thin and dense ones, numbered along
//! the chains, against them and in any order, with and without a cycle.

use crate::joblist::{MOST_JOBS, MOST_TIME};
use crate::lines::Call;
use crate::project::{Project, ProjectJob};
use crate::random::Random;
use crate::reading::Layout::Patterson;
use crate::texts::lent::{call, exact};
use crate::texts::whole::about_the_chain;
use crate::written;

const SIZES: [usize; 6] = [2, 32, 33, 64, 65, MOST_JOBS];

/// Jobs in the order given, each before one in `thin` of those behind it.
fn network(random: &mut Random, order: &[usize], thin: usize, longest: u32) -> Project {
    let mut project = Project {
        caps: vec![random.between(0, 10_000)],
        jobs: vec![ProjectJob::default(); order.len()],
    };
    for (place, &k) in order.iter().enumerate() {
        let behind = order[place + 1..].iter().copied();
        project.jobs[k] = ProjectJob {
            duration: random.between(0, longest),
            demands: vec![random.between(0, 10_000)],
            successors: behind.filter(|_| random.one_in(thin)).collect(),
        };
    }
    project
}

/// The same with a pair from the last job to one of the first half.
fn with_cycle(random: &mut Random, mut project: Project, order: &[usize]) -> Project {
    let last = order[order.len() - 1];
    let early = order[random.below(order.len() / 2)];
    project.jobs[last].successors.push(early);
    project
}

/// As many successors as a text may have without a cycle, most of them twice.
pub fn fullest(random: &mut Random) -> Project {
    let order = random.order(MOST_JOBS);
    let mut project = network(random, &order, 1, 10);
    for job in &mut project.jobs {
        let once = job.successors.clone();
        job.successors = once.iter().cycle().take(MOST_JOBS).copied().collect();
    }
    project
}

/// A network of so many jobs in any order, with or without a cycle.
pub fn any(random: &mut Random, jobs: usize, thin: usize, cycle: bool) -> Project {
    let order = random.order(jobs);
    let project = network(random, &order, thin, 3_900);
    if cycle {
        with_cycle(random, project, &order)
    } else {
        project
    }
}

fn text(project: &Project) -> Vec<u8> {
    written::patterson(project).into_bytes()
}

/// Room for one pair less than there are, and for more.
fn about_the_room(project: &Project) -> [Call; 2] {
    let text = text(project);
    let exact = exact(project.jobs.len(), project.pairs());
    let (mut short, mut long) = (exact, exact);
    short[5] = short[5].saturating_sub(1);
    long[4] += 3;
    long[5] += 2;
    [short, long].map(|lengths| call(Patterson, &text, 0, MOST_TIME, lengths))
}

/// No horizon is long enough for the chain of 256 durations at their limit.
fn longest_chain(random: &mut Random) -> Project {
    let order = random.order(MOST_JOBS);
    let mut project = network(random, &order, 8, 0);
    project
        .jobs
        .iter_mut()
        .for_each(|job| job.duration = MOST_TIME);
    project
}

fn of_size(random: &mut Random, jobs: usize) -> Vec<Call> {
    let along: Vec<usize> = (0..jobs).collect();
    let against: Vec<usize> = (0..jobs).rev().collect();
    let mut calls = Vec::new();
    for order in [along, against, random.order(jobs)] {
        for thin in [1, 3, jobs] {
            let project = network(random, &order, thin, 3_900);
            calls.extend(about_the_chain(Patterson, &text(&project)));
            calls.extend(about_the_room(&project));
            let cyclic = with_cycle(random, project, &order);
            calls.extend(about_the_chain(Patterson, &text(&cyclic)));
        }
    }
    calls
}

fn extremes(random: &mut Random) -> Vec<Call> {
    let fullest = fullest(random);
    let mut calls = about_the_chain(Patterson, &text(&fullest));
    calls.extend(about_the_room(&fullest));
    calls.extend(about_the_room(&longest_chain(random)));
    calls
}

pub fn calls(seed: u64) -> impl Iterator<Item = Call> {
    let mut random = Random::new(seed);
    let parts = SIZES.into_iter().map(Some).chain([None]);
    parts.flat_map(move |size| match size {
        Some(jobs) => of_size(&mut random, jobs),
        None => extremes(&mut random),
    })
}
