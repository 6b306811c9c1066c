//! Texts in PSPLIB's layout for one mode (01, "Library layouts"), read as
//! strictly as Item 13 of 02 asks: refusal 35 for the headings of the whole
//! text, then 30, 31 and 32 as its sections meet them.
//! `layouts.rs` has the lenient reader for files that are known to be good.

use crate::joblist::{MOST_JOBS, MOST_TIME};
use crate::project::{Project, ProjectJob};
use crate::tokens::{Tokens, MOST_RESOURCES};

pub const HEADINGS: [&str; 5] = [
    "jobs (incl. supersource/sink ):",
    "- renewable",
    "PRECEDENCE RELATIONS:",
    "REQUESTS/DURATIONS:",
    "RESOURCEAVAILABILITIES:",
];

/// Which heading the line starts with, after spaces. None is the beginning of
/// another, so there is one at most.
fn heading(line: &[u8]) -> Option<usize> {
    let spaces = line.iter().take_while(|&&byte| byte == b' ').count();
    let bare = &line[spaces..];
    let mut all = HEADINGS.iter();
    all.position(|heading| bare.starts_with(heading.as_bytes()))
}

/// The lines of the five headings. Any other row of headings is refused.
fn heading_lines(lines: &[&[u8]]) -> Result<[usize; 5], u32> {
    let mut places = [0; 5];
    let mut found = 0;
    for (place, line) in lines.iter().enumerate() {
        match heading(line) {
            None => {}
            Some(number) if number == found => {
                places[found] = place;
                found += 1;
            }
            Some(_) => return Err(35),
        }
    }
    if found == HEADINGS.len() {
        Ok(places)
    } else {
        Err(35)
    }
}

/// The number after the line's colon, which stands on the same line.
fn count(line: &[u8], limit: usize) -> Result<usize, u32> {
    let colon = line.iter().position(|&byte| byte == b':');
    let after = colon.map_or(&line[..0], |colon| &line[colon + 1..]);
    Tokens::of(after).count(limit)
}

/// All that stands behind the heading's line and so many more.
fn rows<'a>(lines: &'a [&'a [u8]], heading: usize, more: usize) -> Tokens<'a> {
    Tokens::of_lines(lines.get(heading + 1 + more..).unwrap_or(&[]))
}

/// What both kinds of rows start with: the job, numbered from 1, and a 1, for
/// the number of modes or for the mode.
fn start(tokens: &mut Tokens, k: usize) -> Result<(), u32> {
    tokens.exactly(k + 1)?;
    tokens.exactly(1)
}

fn precedences(tokens: &mut Tokens, jobs: usize) -> Result<Vec<Vec<usize>>, u32> {
    let row = |k: usize| {
        start(tokens, k)?;
        tokens.successors(jobs)
    };
    (0..jobs).map(row).collect()
}

fn requests(tokens: &mut Tokens, k: usize, resources: usize) -> Result<(u32, Vec<u32>), u32> {
    start(tokens, k)?;
    Ok((tokens.at_most(MOST_TIME)?, tokens.demands(resources)?))
}

/// The project a text tells of, or the number of the refusal.
pub fn project(text: &[u8]) -> Result<Project, u32> {
    let lines: Vec<&[u8]> = text.split(|&byte| byte == b'\n').collect();
    let [job_count, renewable, relations, durations, capacities] = heading_lines(&lines)?;
    let jobs = count(lines[job_count], MOST_JOBS)?;
    let resources = count(lines[renewable], MOST_RESOURCES)?;
    let successors = precedences(&mut rows(&lines, relations, 1), jobs)?;
    let mut request_rows = rows(&lines, durations, 2);
    let mut project = Project::default();
    for (k, successors) in successors.into_iter().enumerate() {
        let (duration, demands) = requests(&mut request_rows, k, resources)?;
        project.jobs.push(ProjectJob {
            duration,
            demands,
            successors,
        });
    }
    project.caps = rows(&lines, capacities, 1).demands(resources)?;
    Ok(project)
}
