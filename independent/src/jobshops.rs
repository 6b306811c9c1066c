//! Calls for job-shops: the overload check and the read head's call for each of their
//! machines, within horizons that fit and ones that do not.

use crate::instances::{asking, demands, horizon, one_at_a_time};
use crate::lines::Call;
use crate::project::Project;

/// The two calls for every machine.
pub fn machine_calls(project: &Project, horizon: u32) -> Result<Vec<Call>, String> {
    let times = project.windows(horizon)?;
    let machines = 0..project.caps.len();
    let calls = |machine| one_at_a_time(&times, &demands(project, machine));
    Ok(machines.flat_map(calls).collect())
}

/// The least horizon ruled out neither by a chain nor by the work of a whole
/// machine: all of it comes after the shortest time before one of its jobs and
/// leaves the shortest time after one.
fn least_horizon(project: &Project) -> Result<u64, String> {
    let chain = project.longest_chain()?;
    let times = project.windows(horizon(chain)?)?;
    let mut least = chain;
    for machine in 0..project.caps.len() {
        let work = asking(&times, &demands(project, machine));
        let total: u64 = work.dur.iter().map(|&duration| u64::from(duration)).sum();
        let before = u64::from(work.est.iter().min().copied().unwrap_or(0));
        let after = chain - u64::from(work.lct.iter().max().copied().unwrap_or(0));
        least = least.max(before + total + after);
    }
    Ok(least)
}

/// Horizons of a job-shop: one that fits for certain, the least that may fit,
/// and two that do not, by one and by a tenth.
pub fn jobshop_horizons(project: &Project) -> Result<[u32; 4], String> {
    let durations = project.jobs.iter().map(|job| u64::from(job.duration));
    let all = durations.sum();
    let least = least_horizon(project)?;
    let wanted = [all, least, least.saturating_sub(1), least - least / 10];
    let [fits, may_fit, less, tight] = wanted.map(horizon);
    Ok([fits?, may_fit?, less?, tight?])
}

pub fn jobshop_calls(project: &Project) -> Result<Vec<Call>, String> {
    let mut calls = Vec::new();
    for horizon in jobshop_horizons(project)? {
        calls.extend(machine_calls(project, horizon)?);
    }
    Ok(calls)
}
