//! Instances made from a seed as the public library's generator makes them:
//! a network of the wanted complexity without spare arcs, requests by a
//! resource factor and capacities by a resource strength, with the library's
//! own values of the three and its ranges.

use crate::project::{Project, ProjectJob};
use crate::random::Random;

const RESOURCES: usize = 4;
/// Real jobs that follow the source at once, and as many before the sink.
const ENDS: usize = 3;
/// A real job has at most so many successors, and so many predecessors.
const MOST_ARCS: usize = 3;
/// Durations and demands run from 1 to this.
const MOST: u32 = 10;
const TRIES: usize = 20_000;

/// Jobs 1 to `real` between the source 0 and the sink.
struct Network {
    real: usize,
    successors: Vec<Vec<usize>>,
}

impl Network {
    fn arcs(&self) -> usize {
        self.successors.iter().map(Vec::len).sum()
    }

    fn predecessors(&self, j: usize) -> usize {
        let lists = self.successors.iter();
        lists.filter(|list| list.contains(&j)).count()
    }

    fn leads(&self, from: usize, to: usize) -> bool {
        let mut next = self.successors[from].iter();
        from == to || next.any(|&s| s <= to && self.leads(s, to))
    }

    /// The arc would say nothing new, or an arc that is there would no longer.
    fn is_spare(&self, i: usize, j: usize) -> bool {
        let passed_by = |from: usize| {
            let mut ends = self.successors[from].iter();
            self.leads(from, i) && ends.any(|&to| self.leads(j, to))
        };
        self.leads(i, j) || (0..=i).any(passed_by)
    }

    fn may_add(&self, i: usize, j: usize) -> bool {
        self.successors[i].len() < MOST_ARCS
            && self.predecessors(j) < MOST_ARCS
            && !self.is_spare(i, j)
    }

    /// One arc into every job that has no predecessor, then one out of every
    /// job that has no successor.
    fn connect(&mut self, random: &mut Random) {
        let last_inner = self.real - ENDS;
        for j in ENDS + 1..=self.real {
            let before: Vec<usize> = (1..j.min(last_inner + 1))
                .filter(|&i| self.successors[i].len() < MOST_ARCS)
                .collect();
            let i = random.pick(&before);
            self.successors[i].push(j);
        }
        for i in 1..=last_inner {
            if self.successors[i].is_empty() {
                let after: Vec<usize> = (i.max(ENDS) + 1..=self.real).collect();
                let fit = after.iter().copied().filter(|&j| self.may_add(i, j));
                let fit: Vec<usize> = fit.collect();
                let j = random.pick(if fit.is_empty() { &after } else { &fit });
                self.successors[i].push(j);
            }
        }
    }

    /// More arcs, until there are as many as wanted or no more are found.
    fn fill(&mut self, random: &mut Random, wanted: usize) {
        for _ in 0..TRIES {
            if self.arcs() >= wanted {
                return;
            }
            let i = 1 + random.below(self.real - ENDS);
            let first = i.max(ENDS) + 1;
            let j = first + random.below(self.real + 1 - first);
            if self.may_add(i, j) {
                self.successors[i].push(j);
            }
        }
    }

    fn made(random: &mut Random, real: usize) -> Network {
        let mut network = Network {
            real,
            successors: vec![vec![]; real + 2],
        };
        network.successors[0] = (1..=ENDS).collect();
        for j in real - ENDS + 1..=real {
            network.successors[j].push(real + 1);
        }
        network.connect(random);
        let complexity = random.pick(&[150, 180, 210]);
        network.fill(random, complexity * (real + 2) / 100);
        let lists = network.successors.iter_mut();
        lists.for_each(|list| list.sort_unstable());
        network
    }
}

/// Every real job asks for one resource at least, and on average for the
/// factor's share of them.
fn requests(random: &mut Random, project: &mut Project, real: usize) {
    let factor = random.pick(&[25, 50, 75, 100]);
    for job in &mut project.jobs[1..=real] {
        job.demands[random.below(RESOURCES)] = random.between(1, MOST);
    }
    let mut left = factor * real * RESOURCES / 100 - real;
    while left > 0 {
        let job = &mut project.jobs[1 + random.below(real)];
        let demand = &mut job.demands[random.below(RESOURCES)];
        if *demand == 0 {
            *demand = random.between(1, MOST);
            left -= 1;
        }
    }
}

/// The greatest draw on a resource if every job starts as early as it can.
fn peak(project: &Project, starts: &[u64], resource: usize, chain: u64) -> u32 {
    let runs = |k: usize, t: u64| {
        let end = starts[k] + u64::from(project.jobs[k].duration);
        starts[k] <= t && t < end
    };
    let draw = |t: u64| {
        let running = (0..starts.len()).filter(|&k| runs(k, t));
        running.map(|k| project.jobs[k].demands[resource]).sum()
    };
    (0..chain).map(draw).max().unwrap_or(0)
}

/// Between the greatest demand and the peak, as the strength says.
fn capacities(random: &mut Random, project: &mut Project, real: usize) -> Result<(), String> {
    let strength = match real {
        120 => random.pick(&[1, 2, 3, 4, 5]),
        _ => random.pick(&[2, 5, 7, 10]),
    };
    let starts = project.earliest_starts()?;
    let chain = project.longest_chain()?;
    for resource in 0..RESOURCES {
        let demands = project.jobs.iter().map(|job| job.demands[resource]);
        let least = demands.max().unwrap_or(0);
        let most = peak(project, &starts, resource, chain);
        let cap = least + (strength * (most - least) + 5) / 10;
        project.caps.push(cap);
    }
    Ok(())
}

/// An instance of a size that the library has.
pub fn instance(seed: u64, real: usize) -> Result<Project, String> {
    if ![30, 60, 90, 120].contains(&real) {
        return Err("the library has 30, 60, 90 or 120 jobs".to_string());
    }
    of_any_size(seed, real)
}

/// An instance of so many real jobs, at least seven, and the two dummies.
pub fn of_any_size(seed: u64, real: usize) -> Result<Project, String> {
    let mut random = Random::new(seed);
    let network = Network::made(&mut random, real);
    let mut project = Project::default();
    for (k, successors) in network.successors.into_iter().enumerate() {
        let is_dummy = k == 0 || k == real + 1;
        project.jobs.push(ProjectJob {
            duration: if is_dummy { 0 } else { random.between(1, MOST) },
            demands: vec![0; RESOURCES],
            successors,
        });
    }
    requests(&mut random, &mut project, real);
    capacities(&mut random, &mut project, real)?;
    Ok(project)
}

/// The text of an instance, in the layout named.
pub fn text(seed: u64, real: usize, layout: &str) -> Result<String, String> {
    let project = instance(seed, real)?;
    match layout {
        "rcp" => Ok(crate::written::patterson(&project)),
        "sm" => crate::written::psplib(&project, &format!("MADE{real}_{seed}.BAS"), seed),
        _ => Err(format!("no layout {layout:?}: rcp or sm")),
    }
}
