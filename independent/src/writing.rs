//! The call that writes a Patterson text into a lent buffer (02, Item 13): the
//! order of its refusals; the text itself is that of `written.rs`.

use crate::answers::Answer;
use crate::joblist::{some_above, MOST_DEMAND, MOST_JOBS, MOST_TIME};
use crate::project::{Project, ProjectJob};
use crate::reading::chains;
use crate::written;

/// One resource's capacity, the lists of the jobs and the two of the pairs.
#[derive(Clone, Debug, Default, PartialEq, Eq)]
pub struct Listing {
    pub cap: u32,
    pub dur: Vec<u32>,
    pub dem: Vec<u32>,
    pub jobs: Vec<u32>,
    pub successors: Vec<u32>,
}

impl Listing {
    fn pairs(&self) -> impl Iterator<Item = (u32, u32)> + '_ {
        let pairs = self.jobs.iter().zip(&self.successors);
        pairs.map(|(&job, &successor)| (job, successor))
    }

    /// Refusals 1 to 3, before the pairs are looked at.
    fn good_jobs(&self) -> Result<(), u32> {
        if self.dur.len() != self.dem.len() {
            return Err(1);
        }
        if self.dur.len() > MOST_JOBS {
            return Err(2);
        }
        let above = self.cap > MOST_DEMAND
            || some_above(&self.dur, MOST_TIME)
            || some_above(&self.dem, MOST_DEMAND);
        if above {
            Err(3)
        } else {
            Ok(())
        }
    }

    /// Every pair is of two jobs of the list, and comes after the one before
    /// it by job, then by successor.
    fn has_good_pairs(&self) -> bool {
        let count = self.dur.len() as u64;
        let is_job = |number: u32| u64::from(number) < count;
        let in_range = |(job, successor)| is_job(job) && is_job(successor);
        let mut steps = self.pairs().zip(self.pairs().skip(1));
        self.pairs().all(in_range) && steps.all(|(pair, next)| pair < next)
    }

    /// Only for good pairs.
    fn project(&self) -> Project {
        let mut project = Project {
            caps: vec![self.cap],
            jobs: Vec::new(),
        };
        for (&duration, &demand) in self.dur.iter().zip(&self.dem) {
            project.jobs.push(ProjectJob {
                duration,
                demands: vec![demand],
                successors: Vec::new(),
            });
        }
        for (job, successor) in self.pairs() {
            let successors = &mut project.jobs[job as usize].successors;
            successors.push(successor as usize);
        }
        project
    }

    /// The text, or the number of the refusal, of those that do not ask for
    /// the buffer.
    pub fn text(&self) -> Result<Vec<u8>, u32> {
        self.good_jobs()?;
        if self.jobs.len() != self.successors.len() {
            return Err(1);
        }
        if !self.has_good_pairs() {
            return Err(32);
        }
        let project = self.project();
        chains(&project).ok_or(33_u32)?;
        Ok(written::patterson(&project).into_bytes())
    }
}

pub fn write(listing: &Listing, buffer: &mut [u8]) -> Answer {
    let text = match listing.text() {
        Ok(text) => text,
        Err(number) => return Answer::Refused(number),
    };
    match buffer.get_mut(..text.len()) {
        Some(part) => {
            part.copy_from_slice(&text);
            Answer::Written(text.len())
        }
        None => Answer::Refused(36),
    }
}
