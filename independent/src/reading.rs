//! The calls that read a text into lent lists (02, Items 1 and 13): the order of
//! their refusals, windows by longest chains, and the pairs in text order. The
//! layouts differ in how the text is read and in nothing else.

use crate::answers::Answer;
use crate::joblist::MOST_TIME;
use crate::project::Project;
use crate::{patterson, psplib};

/// The four lists of the jobs and the two of the pairs.
#[derive(Clone, Debug, Default, PartialEq, Eq)]
pub struct Lent {
    pub est: Vec<u32>,
    pub lct: Vec<u32>,
    pub dur: Vec<u32>,
    pub dem: Vec<u32>,
    pub jobs: Vec<u32>,
    pub successors: Vec<u32>,
}

#[derive(Clone, Copy, Debug, PartialEq, Eq)]
pub enum Layout {
    Patterson,
    Psplib,
}

impl Layout {
    /// The first word of the call's line.
    pub fn name(self) -> &'static str {
        match self {
            Layout::Patterson => "patterson",
            Layout::Psplib => "psplib",
        }
    }

    /// The project a text tells of, or the number of the refusal.
    pub fn project(self, text: &[u8]) -> Result<Project, u32> {
        match self {
            Layout::Patterson => patterson::project(text),
            Layout::Psplib => psplib::project(text),
        }
    }
}

#[derive(Clone, Debug, PartialEq, Eq)]
pub struct Request {
    pub layout: Layout,
    pub resource: u32,
    pub horizon: u32,
    pub text: Vec<u8>,
}

impl Lent {
    /// In the order of the call's line.
    pub fn lists(&self) -> [&Vec<u32>; 6] {
        let Lent {
            est, lct, dur, dem, ..
        } = self;
        [est, lct, dur, dem, &self.jobs, &self.successors]
    }

    fn has_room(&self, jobs: usize, pairs: usize) -> bool {
        let [est, lct, dur, dem, from, to] = self.lists().map(Vec::len);
        [est, lct, dur, dem].iter().all(|&length| length == jobs) && pairs <= from.min(to)
    }
}

/// The longest chains before and after each job, the job itself not counted.
pub struct Chains {
    pub before: Vec<u64>,
    pub after: Vec<u64>,
}

/// The jobs, each one after all that precede it; none where there is a cycle.
fn sorted(project: &Project) -> Option<Vec<usize>> {
    let mut waits_for = vec![0; project.jobs.len()];
    let all = project.jobs.iter().flat_map(|job| &job.successors);
    all.for_each(|&s| waits_for[s] += 1);
    let jobs = 0..project.jobs.len();
    let mut sorted: Vec<usize> = jobs.filter(|&k| waits_for[k] == 0).collect();
    let mut next = 0;
    while let Some(&k) = sorted.get(next) {
        next += 1;
        for &s in &project.jobs[k].successors {
            waits_for[s] -= 1;
            if waits_for[s] == 0 {
                sorted.push(s);
            }
        }
    }
    (sorted.len() == project.jobs.len()).then_some(sorted)
}

/// The chains of a project; none where there is a cycle.
pub fn chains(project: &Project) -> Option<Chains> {
    let sorted = sorted(project)?;
    let length = |k: usize| u64::from(project.jobs[k].duration);
    let mut before = vec![0; sorted.len()];
    let mut after = vec![0; sorted.len()];
    for &k in &sorted {
        for &s in &project.jobs[k].successors {
            before[s] = before[s].max(before[k] + length(k));
        }
    }
    for &k in sorted.iter().rev() {
        for &s in &project.jobs[k].successors {
            after[k] = after[k].max(length(s) + after[s]);
        }
    }
    Some(Chains { before, after })
}

/// The longest chain of all, its last job included.
pub fn longest(project: &Project, chains: &Chains) -> u64 {
    let jobs = project.jobs.iter().zip(&chains.before);
    let ends = jobs.map(|(job, before)| before + u64::from(job.duration));
    ends.max().unwrap_or(0)
}

/// The project and its chains, or the number of the refusal.
fn accepted(request: &Request, lent: &Lent) -> Result<(Project, Chains), u32> {
    if request.horizon > MOST_TIME {
        return Err(31);
    }
    let project = request.layout.project(&request.text)?;
    if request.resource as usize >= project.caps.len() {
        return Err(37);
    }
    if !lent.has_room(project.jobs.len(), project.pairs()) {
        return Err(38);
    }
    let chains = chains(&project).ok_or(33_u32)?;
    if u64::from(request.horizon) < longest(&project, &chains) {
        return Err(34);
    }
    Ok((project, chains))
}

fn fill(lent: &mut Lent, project: &Project, chains: &Chains, request: &Request) {
    let time = |time: u64| u32::try_from(time).expect("no chain is longer than the horizon");
    let mut pairs = 0;
    for (k, job) in project.jobs.iter().enumerate() {
        lent.est[k] = time(chains.before[k]);
        lent.lct[k] = request.horizon - time(chains.after[k]);
        lent.dur[k] = job.duration;
        lent.dem[k] = job.demands[request.resource as usize];
        for &s in &job.successors {
            lent.jobs[pairs] = k as u32;
            lent.successors[pairs] = s as u32;
            pairs += 1;
        }
    }
}

pub fn read(request: &Request, lent: &mut Lent) -> Answer {
    match accepted(request, lent) {
        Ok((project, chains)) => {
            fill(lent, &project, &chains, request);
            Answer::Read(project.caps[request.resource as usize], project.pairs())
        }
        Err(number) => Answer::Refused(number),
    }
}
