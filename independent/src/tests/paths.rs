//! The reader on published and made texts, and its chains and cycles against
//! all paths of small networks.

use super::layouts::published;
use crate::answers::Answer;
use crate::layouts::instance;
use crate::make;
use crate::project::{Project, ProjectJob};
use crate::random::Random;
use crate::reading::{chains, longest, read, Layout, Lent, Request};
use Layout::{Patterson, Psplib};

fn lent(project: &Project) -> Lent {
    crate::tests::lent(project.jobs.len(), project.pairs(), 0)
}

/// Every resource is read as the project has it, windows by the rounds of
/// `project.rs` and not by an order of the jobs.
fn assert_read(layout: Layout, text: &str, project: &Project) {
    let chain = project.longest_chain().unwrap() as u32;
    let pairs = project.jobs.iter().enumerate();
    let pairs = pairs.flat_map(|(k, job)| job.successors.iter().map(move |&s| (k, s)));
    let pairs: Vec<(usize, usize)> = pairs.collect();
    for (resource, &cap) in project.caps.iter().enumerate() {
        let mut lists = lent(project);
        let request = Request {
            layout,
            resource: resource as u32,
            horizon: chain + 5,
            text: text.as_bytes().to_vec(),
        };
        let answer = read(&request, &mut lists);
        assert_eq!(answer, Answer::Read(cap, pairs.len()));
        let times = project.windows(chain + 5).unwrap();
        assert_eq!((lists.est, lists.lct), (times.est, times.lct));
        assert_eq!(lists.dur, times.dur);
        let demands = project.jobs.iter().map(|job| job.demands[resource]);
        assert!(demands.eq(lists.dem));
        let read = lists.jobs.iter().zip(&lists.successors);
        assert!(read
            .map(|(&k, &s)| (k as usize, s as usize))
            .eq(pairs.clone()));
    }
}

#[test]
fn the_published_texts_are_read() {
    for (layout, name) in [(Patterson, "j301_1.rcp"), (Psplib, "j301_1.sm")] {
        let text = published(name);
        let project = layout.project(text.as_bytes()).unwrap();
        assert_eq!(project, instance(&text).unwrap());
        assert_eq!(project.caps, [12, 13, 4, 12]);
        assert_eq!((project.jobs.len(), project.pairs()), (32, 48));
        assert_eq!(project.longest_chain(), Ok(38));
        assert_read(layout, &text, &project);
    }
}

#[test]
fn made_texts_are_read() {
    for (seed, jobs) in [(5, 30), (6, 60), (7, 90), (8, 120)] {
        let project = make::instance(seed, jobs).unwrap();
        for (layout, ending) in [(Patterson, "rcp"), (Psplib, "sm")] {
            assert_read(layout, &make::text(seed, jobs, ending).unwrap(), &project);
        }
    }
}

/// Any pairs at all between a few jobs.
fn small_network(random: &mut Random) -> Project {
    let jobs = 1 + random.below(6);
    let thin = 2 + random.below(7);
    let all: Vec<usize> = (0..jobs).collect();
    let mut project = Project::default();
    for _ in 0..jobs {
        let successors = all.iter().copied().filter(|_| random.one_in(thin));
        let successors = successors.collect();
        project.jobs.push(ProjectJob {
            duration: random.between(0, 3),
            demands: Vec::new(),
            successors,
        });
    }
    project
}

/// All paths from a job along pairs, the job first, that visit no job twice;
/// and whether one of them leads back to its first job.
fn paths(project: &Project, path: Vec<usize>, all: &mut Vec<Vec<usize>>) -> bool {
    let mut back = false;
    for &s in &project.jobs[path[path.len() - 1]].successors {
        if s == path[0] {
            back = true;
        } else if !path.contains(&s) {
            back |= paths(project, [&path[..], &[s]].concat(), all);
        }
    }
    all.push(path);
    back
}

#[test]
fn chains_are_the_longest_paths_and_cycles_the_paths_back() {
    let mut random = Random::new(11);
    let mut cycles = 0;
    for _ in 0..4_000 {
        let project = small_network(&mut random);
        let mut all = Vec::new();
        let mut back = false;
        for k in 0..project.jobs.len() {
            back |= paths(&project, vec![k], &mut all);
        }
        let found = chains(&project);
        assert_eq!(found.is_none(), back);
        cycles += usize::from(back);
        let Some(found) = found else { continue };
        let length = |path: &[usize]| -> u64 {
            let durations = path.iter().map(|&k| project.jobs[k].duration);
            durations.map(u64::from).sum()
        };
        for k in 0..project.jobs.len() {
            let to = all.iter().filter(|path| path.last() == Some(&k));
            let from = all.iter().filter(|path| path[0] == k);
            let before = to.map(|path| length(&path[..path.len() - 1])).max();
            let after = from.map(|path| length(&path[1..])).max();
            assert_eq!(
                (before, after),
                (Some(found.before[k]), Some(found.after[k]))
            );
        }
        let whole = all.iter().map(|path| length(path)).max();
        assert_eq!(whole, Some(longest(&project, &found)));
    }
    assert!(cycles > 800 && cycles < 3_200, "{cycles}");
}
