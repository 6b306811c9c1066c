//! How many units an operator is told of: the jobs marked in the clashes of made
//! instances, and how many of them are left when each one without which there is
//! still a clash is taken out (02, Item 14).

use crate::answers::Answer;
use crate::conflict::conflict;
use crate::instances::{project_lists, run_log};
use crate::joblist::{Supply, Times};
use crate::make;
use crate::reasons::lean;

const SIZES: [usize; 3] = [12, 30, 60];
const MADE: u64 = 500;

#[derive(Clone, Copy, Default)]
pub struct Tally {
    clashes: u64,
    marked: u64,
    left: u64,
    shorter: u64,
}

/// The jobs that the run's log marks; none where it does not clash.
fn marked(times: &Times, supply: &Supply) -> Option<Vec<usize>> {
    let (count, log) = run_log(lean, times, supply);
    match conflict(times, supply, count as u64, &log) {
        (Answer::Marked(_), set) => Some(set.numbers()),
        _ => None,
    }
}

/// The lists of these jobs alone.
fn alone(times: &Times, supply: &Supply, jobs: &[usize]) -> (Times, Supply) {
    let mut few = Times::default();
    jobs.iter()
        .for_each(|&k| few.push(times.est[k], times.lct[k], times.dur[k]));
    let dem = jobs.iter().map(|&k| supply.dem[k]).collect();
    (few, Supply { dem, ..*supply })
}

/// The jobs left when, by rising number, each one is taken out without which the
/// run of the others still clashes.
fn left(times: &Times, supply: &Supply, jobs: Vec<usize>) -> Vec<usize> {
    let mut left = jobs.clone();
    for k in jobs {
        let mut fewer = left.clone();
        fewer.retain(|&other| other != k);
        let (few, rest) = alone(times, supply, &fewer);
        if marked(&few, &rest).is_some() {
            left = fewer;
        }
    }
    left
}

impl Tally {
    pub fn add(&mut self, times: &Times, supply: &Supply) {
        if let Some(marked) = marked(times, supply) {
            let left = left(times, supply, marked.clone());
            self.clashes += 1;
            self.marked += marked.len() as u64;
            self.left += left.len() as u64;
            self.shorter += u64::from(left.len() < marked.len());
        }
    }

    fn each(&self, jobs: u64) -> f64 {
        jobs as f64 / self.clashes.max(1) as f64
    }

    pub fn line(&self, jobs: usize) -> String {
        format!(
            "{jobs} jobs: {} clashes, marked {:.2} on average, left {:.2}, fewer in {}",
            self.clashes,
            self.each(self.marked),
            self.each(self.left),
            self.shorter,
        )
    }
}

/// A line for each size.
pub fn lines() -> Result<Vec<String>, String> {
    let mut lines = Vec::new();
    for jobs in SIZES {
        let mut tally = Tally::default();
        for seed in 1..=MADE {
            for (times, supply) in project_lists(&make::of_any_size(seed, jobs)?)? {
                tally.add(&times, &supply);
            }
        }
        lines.push(tally.line(jobs));
    }
    Ok(lines)
}
