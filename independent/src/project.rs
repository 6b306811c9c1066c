//! A project as the public libraries have it: jobs with durations, demands on
//! several resources and successors; windows by longest chains.

use crate::joblist::Times;

#[derive(Clone, Debug, Default, PartialEq, Eq)]
pub struct Project {
    pub caps: Vec<u32>,
    pub jobs: Vec<ProjectJob>,
}

#[derive(Clone, Debug, Default, PartialEq, Eq)]
pub struct ProjectJob {
    pub duration: u32,
    /// One for each resource.
    pub demands: Vec<u32>,
    /// Numbered from 0.
    pub successors: Vec<usize>,
}

impl Project {
    /// The number of pairs of a job and a successor.
    pub fn pairs(&self) -> usize {
        self.jobs.iter().map(|job| job.successors.len()).sum()
    }

    /// The longest chains before (`forward`) or after each job, the job itself
    /// not counted.
    fn chains(&self, forward: bool) -> Result<Vec<u64>, String> {
        let mut chains = vec![0; self.jobs.len()];
        for _ in 0..=self.jobs.len() {
            let mut changed = false;
            for (k, job) in self.jobs.iter().enumerate() {
                for &s in &job.successors {
                    let (from, to) = if forward { (k, s) } else { (s, k) };
                    let longer = chains[from] + u64::from(self.jobs[from].duration);
                    if longer > chains[to] {
                        chains[to] = longer;
                        changed = true;
                    }
                }
            }
            if !changed {
                return Ok(chains);
            }
        }
        Err("the successors form a cycle".to_string())
    }

    pub fn earliest_starts(&self) -> Result<Vec<u64>, String> {
        self.chains(true)
    }

    pub fn longest_chain(&self) -> Result<u64, String> {
        let starts = self.earliest_starts()?;
        let jobs = starts.iter().zip(&self.jobs);
        let longest = jobs.map(|(before, job)| before + u64::from(job.duration));
        Ok(longest.max().unwrap_or(0))
    }

    /// Earliest start: the longest chain before the job. Latest end: the
    /// horizon less the longest chain after it, 0 where the chain is longer.
    pub fn windows(&self, horizon: u32) -> Result<Times, String> {
        let before = self.chains(true)?;
        let after = self.chains(false)?;
        let mut times = Times::default();
        for (k, job) in self.jobs.iter().enumerate() {
            let est = u32::try_from(before[k]).map_err(|_| "a chain is too long")?;
            let lct = u64::from(horizon).saturating_sub(after[k]);
            times.push(est, lct as u32, job.duration);
        }
        Ok(times)
    }
}
