//! Texts in Patterson's layout (01, "Library layouts"), read as strictly as
//! Item 1 of 02 asks: refusals 30, 31 and 32 as the text meets them.
//! `layouts.rs` has the lenient reader for files that are known to be good.

use crate::joblist::{MOST_JOBS, MOST_TIME};
use crate::project::{Project, ProjectJob};
use crate::tokens::{Tokens, MOST_RESOURCES};

fn job(tokens: &mut Tokens, jobs: usize, resources: usize) -> Result<ProjectJob, u32> {
    Ok(ProjectJob {
        duration: tokens.at_most(MOST_TIME)?,
        demands: tokens.demands(resources)?,
        successors: tokens.successors(jobs)?,
    })
}

/// The project a text tells of, or the number of the refusal.
pub fn project(text: &[u8]) -> Result<Project, u32> {
    let mut tokens = Tokens::of(text);
    let count = tokens.count(MOST_JOBS)?;
    let resources = tokens.count(MOST_RESOURCES)?;
    let caps = tokens.demands(resources)?;
    let jobs: Result<Vec<ProjectJob>, u32> = (0..count)
        .map(|_| job(&mut tokens, count, resources))
        .collect();
    let project = Project { caps, jobs: jobs? };
    if tokens.is_at_end() {
        Ok(project)
    } else {
        Err(30)
    }
}
