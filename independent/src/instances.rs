//! Calls for instances: one resource within a horizon, and all calls for a
//! folder of published files and made ones.

use crate::answers::Answer;
use crate::joblist::{Job, Supply, Times};
use crate::jobshops::jobshop_calls;
use crate::lines::Call;
use crate::project::Project;
use crate::reasons::{dropped, full, lean, Naming};
use crate::record::{Members, RECORD_WORDS};
use crate::replay::check;
use crate::timetable::narrow_naming;
use crate::{layouts, make};
use std::path::{Path, PathBuf};

/// No call gets a log for more records.
const MOST_ROOM: usize = 2_000;
const MADE: u64 = 100;

/// The count and the words of the run's records, their members named in this
/// way; none where they are too many.
pub fn run_log(naming: Naming, times: &Times, supply: &Supply) -> (usize, Vec<u32>) {
    let mut log = vec![0; MOST_ROOM * RECORD_WORDS];
    match narrow_naming(naming, &mut times.clone(), supply, &mut log) {
        Answer::Settled(count) | Answer::Clash(count, _) => {
            log.truncate(count * RECORD_WORDS);
            (count, log)
        }
        _ => (0, Vec::new()),
    }
}

/// 01's members, the spare ones dropped by falling number.
fn falling(jobs: &[Job], cap: i64, j: usize, t: i64) -> Members {
    let members = full(jobs, cap, j, t);
    let order: Vec<usize> = members.numbers().into_iter().rev().collect();
    dropped(jobs, cap, j, members, &order)
}

pub fn demands(project: &Project, resource: usize) -> Vec<u32> {
    let demands = project.jobs.iter().map(|job| job.demands[resource]);
    demands.collect()
}

/// The times of the jobs that ask for the resource.
pub fn asking(times: &Times, demands: &[u32]) -> Times {
    let mut asking = Times::default();
    for k in (0..demands.len()).filter(|&k| demands[k] >= 1) {
        asking.push(times.est[k], times.lct[k], times.dur[k]);
    }
    asking
}

/// The calls that take a resource to serve one job at a time, for those that ask
/// for it.
pub fn one_at_a_time(times: &Times, demands: &[u32]) -> [Call; 2] {
    let asking = asking(times, demands);
    [Call::Overload(asking.clone()), Call::Head(asking)]
}

/// The lists for one resource.
fn lists(project: &Project, resource: usize, horizon: u32) -> Result<(Times, Supply), String> {
    let cap = *project.caps.get(resource).ok_or("no such resource")?;
    let dem = demands(project, resource);
    Ok((project.windows(horizon)?, Supply { cap, dem }))
}

/// Narrowing with room for a record more than the run has, the check of the
/// run's own log, its marks where it ends in a clash, the checks of the logs that
/// name other members, as 01 has them and as dropping by falling number leaves
/// them, and the overload check and the read head for the jobs that ask for it.
fn list_calls(times: Times, supply: Supply) -> Vec<Call> {
    let (count, log) = run_log(lean, &times, &supply);
    let checked = |log: Vec<u32>| Call::Check(times.clone(), supply.clone(), count as u64, log);
    let empty = vec![0; log.len() + RECORD_WORDS];
    let mut calls = vec![
        Call::Narrow(times.clone(), supply.clone(), empty),
        checked(log.clone()),
    ];
    let said = check(&mut times.clone(), &supply, count as u64, &log);
    if matches!(said, Answer::Clash(..)) {
        let (times, supply) = (times.clone(), supply.clone());
        calls.push(Call::Conflict(times, supply, count as u64, log.clone()));
    }
    let others = [full as Naming, falling];
    let others = others.map(|naming| run_log(naming, &times, &supply).1);
    let others = others.into_iter().filter(|other| other != &log);
    calls.extend(others.map(checked));
    calls.extend(one_at_a_time(&times, &supply.dem));
    calls
}

/// The calls for one resource.
pub fn resource_calls(
    project: &Project,
    resource: usize,
    horizon: u32,
) -> Result<Vec<Call>, String> {
    let (times, supply) = lists(project, resource, horizon)?;
    Ok(list_calls(times, supply))
}

pub fn horizon(value: u64) -> Result<u32, String> {
    u32::try_from(value).map_err(|_| "the horizon is too long".to_string())
}

/// The lists for every resource, with the longest chain as horizon, a tenth and
/// a half above it.
pub fn project_lists(project: &Project) -> Result<Vec<(Times, Supply)>, String> {
    let chain = project.longest_chain()?;
    let mut all = Vec::new();
    for long in [chain, chain + chain.div_ceil(10), chain + chain.div_ceil(2)] {
        for resource in 0..project.caps.len() {
            all.push(lists(project, resource, horizon(long)?)?);
        }
    }
    Ok(all)
}

pub fn file_text(path: &Path) -> Result<String, String> {
    std::fs::read_to_string(path).map_err(|why| format!("{}: {why}", path.display()))
}

/// The files of a folder whose names end so, in the order of their names.
fn files(dir: &Path, ending: &str) -> Result<Vec<PathBuf>, String> {
    let entries = std::fs::read_dir(dir).map_err(|why| format!("{}: {why}", dir.display()))?;
    let paths = entries.map(|entry| entry.map(|entry| entry.path()));
    let paths: Result<Vec<PathBuf>, _> = paths.collect();
    let mut paths = paths.map_err(|why| why.to_string())?;
    paths.retain(|path| path.extension().is_some_and(|found| found == ending));
    paths.sort();
    Ok(paths)
}

/// Hands over the published instances and a hundred made ones of each size, half
/// of them in either layout, each with the name of its family.
pub fn folder_projects(
    dir: &Path,
    mut hand_over: impl FnMut(&str, Project) -> Result<(), String>,
) -> Result<(), String> {
    for ending in ["rcp", "sm"] {
        for path in files(dir, ending)? {
            hand_over(
                "published instances",
                layouts::instance(&file_text(&path)?)?,
            )?;
        }
    }
    for jobs in [30, 60, 90, 120] {
        for seed in 1..=MADE {
            let layout = if seed % 2 == 0 { "sm" } else { "rcp" };
            let text = make::text(seed, jobs, layout)?;
            hand_over("made instances", layouts::instance(&text)?)?;
        }
    }
    Ok(())
}

/// Hands over all calls: those of the published and made instances, and those
/// of the job-shop files.
pub fn folder_calls(
    dir: &Path,
    mut hand_over: impl FnMut(Vec<Call>) -> Result<(), String>,
) -> Result<(), String> {
    folder_projects(dir, |_, project| {
        for (times, supply) in project_lists(&project)? {
            hand_over(list_calls(times, supply))?;
        }
        Ok(())
    })?;
    for path in files(&dir.join("jobshop"), "txt")? {
        hand_over(jobshop_calls(&layouts::jobshop(&file_text(&path)?)?)?)?;
    }
    Ok(())
}
