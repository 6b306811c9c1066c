//! Job lists and their limits, refusals 1 to 3, tested in the order of their
//! numbers, refusal 7 after them where there is a log, and windows that are too
//! short (01, "Job lists" and "Answer table"; 02, Items 3 and 10).

use crate::record::is_ragged;

pub const MOST_JOBS: usize = 256;
/// The limit of times and durations.
pub const MOST_TIME: u32 = 1_000_000;
/// The limit of demands and of the capacity.
pub const MOST_DEMAND: u32 = 10_000;

/// The lists of earliest starts, latest ends and durations.
#[derive(Clone, Debug, Default, PartialEq, Eq)]
pub struct Times {
    pub est: Vec<u32>,
    pub lct: Vec<u32>,
    pub dur: Vec<u32>,
}

/// The capacity and the list of demands.
#[derive(Clone, Debug, Default, PartialEq, Eq)]
pub struct Supply {
    pub cap: u32,
    pub dem: Vec<u32>,
}

/// One job in numbers that may also lie below zero: e, l, p, r.
#[derive(Clone, Copy, Debug, PartialEq, Eq)]
pub struct Job {
    pub e: i64,
    pub l: i64,
    pub p: i64,
    pub r: i64,
}

impl Job {
    /// The window is shorter than p.
    pub fn is_too_short(&self) -> bool {
        self.e + self.p > self.l
    }
}

impl Supply {
    /// A resource that serves one job at a time, as a capacity and demands.
    pub fn of_one(jobs: usize) -> Supply {
        Supply {
            cap: 1,
            dem: vec![1; jobs],
        }
    }
}

impl Times {
    pub fn push(&mut self, est: u32, lct: u32, dur: u32) {
        self.est.push(est);
        self.lct.push(lct);
        self.dur.push(dur);
    }

    /// Rewrites the windows by those reached.
    pub fn rewrite(&mut self, jobs: &[Job]) {
        let word = |time: i64| u32::try_from(time).expect("a reached time fits its word");
        for (k, job) in jobs.iter().enumerate() {
            self.est[k] = word(job.e);
            self.lct[k] = word(job.l);
        }
    }
}

/// The lists of jobs written e, l, p, r, and a capacity.
pub fn lists(cap: u32, jobs: &[(u32, u32, u32, u32)]) -> (Times, Supply) {
    let mut times = Times::default();
    jobs.iter().for_each(|&(e, l, p, _)| times.push(e, l, p));
    let dem = jobs.iter().map(|&(_, _, _, r)| r).collect();
    (times, Supply { cap, dem })
}

pub fn some_above(list: &[u32], limit: u32) -> bool {
    list.iter().any(|&number| number > limit)
}

/// The jobs of a good list, or the number of the refusal.
pub fn good_jobs(times: &Times, supply: &Supply) -> Result<Vec<Job>, u32> {
    let n = times.est.len();
    if times.lct.len() != n || times.dur.len() != n || supply.dem.len() != n {
        return Err(1);
    }
    if n > MOST_JOBS {
        return Err(2);
    }
    if some_above(&times.est, MOST_TIME)
        || some_above(&times.lct, MOST_TIME)
        || some_above(&times.dur, MOST_TIME)
        || some_above(&supply.dem, MOST_DEMAND)
        || supply.cap > MOST_DEMAND
    {
        return Err(3);
    }
    let job = |k: usize| Job {
        e: i64::from(times.est[k]),
        l: i64::from(times.lct[k]),
        p: i64::from(times.dur[k]),
        r: i64::from(supply.dem[k]),
    };
    Ok((0..n).map(job).collect())
}

/// The same for a call with a log, which may not be ragged.
pub fn good_jobs_with_log(times: &Times, supply: &Supply, log: &[u32]) -> Result<Vec<Job>, u32> {
    let jobs = good_jobs(times, supply)?;
    if is_ragged(log) {
        return Err(7);
    }
    Ok(jobs)
}

/// The lowest job whose window is too short, if there is one.
pub fn lowest_too_short(jobs: &[Job]) -> Option<usize> {
    jobs.iter().position(Job::is_too_short)
}
