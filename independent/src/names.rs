//! How many names an operator is spared: the members of the runs' records as 01
//! names them and as they are named now, for families of lists (02, Item 7).

use crate::calls::crowds::{Crowd, Demands};
use crate::instances::{folder_projects, project_lists, run_log};
use crate::joblist::{Supply, Times, MOST_JOBS};
use crate::random::Random;
use crate::reasons::{full, lean};
use crate::record::RECORD_WORDS;
use std::path::Path;

const SEED: u64 = 7;
const CROWDS: usize = 200;
const LEAST_JOBS: u32 = 32;
/// The greatest duration in a crowd, and the greatest demand.
const MOST: u32 = 10;

#[derive(Clone, Copy, Default)]
struct Tally {
    lists: u64,
    records: u64,
    by_01: u64,
    now: u64,
}

/// The sum of the count words.
fn named(log: &[u32]) -> u64 {
    let records = log.chunks_exact(RECORD_WORDS);
    records.map(|words| u64::from(words[3])).sum()
}

impl Tally {
    fn add(&mut self, times: &Times, supply: &Supply) {
        let (count, log) = run_log(lean, times, supply);
        self.lists += 1;
        self.records += count as u64;
        self.by_01 += named(&run_log(full, times, supply).1);
        self.now += named(&log);
    }

    fn each(&self, members: u64) -> f64 {
        members as f64 / self.records.max(1) as f64
    }

    fn line(&self, family: &str) -> String {
        format!(
            "{family}: {} lists, {} records, members by 01 {}, now {}, a record {:.2} and {:.2}",
            self.lists,
            self.records,
            self.by_01,
            self.now,
            self.each(self.by_01),
            self.each(self.now),
        )
    }
}

/// The families in their order, each with its tally.
#[derive(Default)]
pub struct Families(Vec<(String, Tally)>);

impl Families {
    /// Adds a list to its family, which is a new one if it is not the last.
    pub fn add(&mut self, family: &str, times: &Times, supply: &Supply) {
        if self.0.last().is_none_or(|(last, _)| last != family) {
            self.0.push((family.to_string(), Tally::default()));
        }
        if let Some((_, tally)) = self.0.last_mut() {
            tally.add(times, supply);
        }
    }

    /// A line for each family.
    pub fn lines(&self) -> Vec<String> {
        let lines = self.0.iter().map(|(family, tally)| tally.line(family));
        lines.collect()
    }
}

/// Lists of many parallel jobs, a quarter of which has to leave the others.
fn add_crowds(families: &mut Families, family: &str, wide: bool, overdrawn: bool) {
    let mut random = Random::new(SEED);
    for _ in 0..CROWDS {
        let crowd = Crowd {
            jobs: random.between(LEAST_JOBS, MOST_JOBS as u32) as usize,
            duration: MOST,
            leaving: 4,
            demands: Demands::Any,
            demand: MOST,
            wide,
            overdrawn,
        };
        let (times, supply) = crowd.drawn(&mut random);
        families.add(family, &times, &supply);
    }
}

/// The lines for the instances of a folder, made ones and parallel jobs.
pub fn lines(dir: &Path) -> Result<Vec<String>, String> {
    let mut families = Families::default();
    folder_projects(dir, |family, project| {
        for (times, supply) in project_lists(&project)? {
            families.add(family, &times, &supply);
        }
        Ok(())
    })?;
    add_crowds(&mut families, "parallel jobs alike", false, false);
    add_crowds(
        &mut families,
        "parallel jobs, greater ones leave",
        true,
        false,
    );
    add_crowds(&mut families, "parallel jobs overdrawn", false, true);
    Ok(families.lines())
}
