//! Readers of published files: Patterson's layout and PSPLIB's for one mode
//! (01, "Library layouts"), and job-shop files, which become projects with a
//! resource of capacity 1 for each machine.

use crate::project::{Project, ProjectJob};

/// Headings in this order; the first two carry a number on their line.
const JOBS: &str = "jobs (incl. supersource/sink ):";
const RENEWABLE: &str = "- renewable";
const PRECEDENCES: &str = "PRECEDENCE RELATIONS:";
const REQUESTS: &str = "REQUESTS/DURATIONS:";
const AVAILABILITIES: &str = "RESOURCEAVAILABILITIES:";

fn number(word: &str) -> Result<u32, String> {
    let digits = !word.is_empty() && word.bytes().all(|byte| byte.is_ascii_digit());
    match word.parse() {
        Ok(value) if digits => Ok(value),
        _ => Err(format!("not a number: {word:?}")),
    }
}

struct Numbers<'a>(Box<dyn Iterator<Item = &'a str> + 'a>);

impl<'a> Numbers<'a> {
    fn of(text: &'a str) -> Numbers<'a> {
        let words = text.split([' ', '\t', '\r', '\n']);
        Numbers(Box::new(words.filter(|word| !word.is_empty())))
    }

    fn next(&mut self) -> Result<u32, String> {
        number(self.0.next().ok_or("the text is too short")?)
    }

    fn expect(&mut self, wanted: usize) -> Result<(), String> {
        match self.next()? as usize {
            found if found == wanted => Ok(()),
            found => Err(format!("{found} stands where {wanted} should")),
        }
    }

    fn list(&mut self, length: usize) -> Result<Vec<u32>, String> {
        (0..length).map(|_| self.next()).collect()
    }

    /// The successor count and the successors, which the text numbers from 1.
    fn successors(&mut self, jobs: usize) -> Result<Vec<usize>, String> {
        let count = self.next()? as usize;
        let successor = |_| match self.next()? as usize {
            s if 1 <= s && s <= jobs => Ok(s - 1),
            s => Err(format!("no such successor: {s}")),
        };
        (0..count).map(successor).collect()
    }

    fn end(mut self) -> Result<(), String> {
        match self.0.next() {
            None => Ok(()),
            Some(word) => Err(format!("text left over: {word:?}")),
        }
    }
}

fn patterson(text: &str) -> Result<Project, String> {
    let mut numbers = Numbers::of(text);
    let jobs = numbers.next()? as usize;
    let resources = numbers.next()? as usize;
    let caps = numbers.list(resources)?;
    let mut project = Project { caps, jobs: vec![] };
    for _ in 0..jobs {
        project.jobs.push(ProjectJob {
            duration: numbers.next()?,
            demands: numbers.list(resources)?,
            successors: numbers.successors(jobs)?,
        });
    }
    numbers.end()?;
    Ok(project)
}

fn has_heading(line: &str, heading: &str) -> bool {
    line.trim_start_matches(' ').starts_with(heading)
}

/// The text after the line of the heading and `more` lines behind it.
fn section<'a>(text: &'a str, heading: &str, more: usize) -> Result<&'a str, String> {
    let mut lines = text.split_inclusive('\n');
    let mut passed = 0;
    for line in lines.by_ref() {
        passed += line.len();
        if has_heading(line, heading) {
            passed += lines.take(more).map(str::len).sum::<usize>();
            return Ok(&text[passed..]);
        }
    }
    Err(format!("no heading {heading:?}"))
}

/// The number after the colon of the heading's line.
fn count(text: &str, heading: &str) -> Result<usize, String> {
    let mut lines = text.split('\n');
    let line = lines.find(|line| has_heading(line, heading));
    let line = line.ok_or(format!("no heading {heading:?}"))?;
    let after = line.split_once(':').ok_or("no colon")?.1;
    Ok(Numbers::of(after).next()? as usize)
}

fn psplib(text: &str) -> Result<Project, String> {
    let jobs = count(text, JOBS)?;
    let resources = count(text, RENEWABLE)?;
    let mut precedences = Numbers::of(section(text, PRECEDENCES, 1)?);
    let mut requests = Numbers::of(section(text, REQUESTS, 2)?);
    let caps = Numbers::of(section(text, AVAILABILITIES, 1)?).list(resources)?;
    let mut project = Project { caps, jobs: vec![] };
    for k in 1..=jobs {
        precedences.expect(k)?;
        precedences.expect(1)?;
        let successors = precedences.successors(jobs)?;
        requests.expect(k)?;
        requests.expect(1)?;
        project.jobs.push(ProjectJob {
            duration: requests.next()?,
            demands: requests.list(resources)?,
            successors,
        });
    }
    Ok(project)
}

/// Jobs and machines, then for each job its machine and duration pairs in
/// order, machines from 0.
pub fn jobshop(text: &str) -> Result<Project, String> {
    let mut numbers = Numbers::of(text);
    let jobs = numbers.next()? as usize;
    let machines = numbers.next()? as usize;
    let mut project = Project {
        caps: vec![1; machines],
        jobs: vec![],
    };
    for _ in 0..jobs {
        for place in 1..=machines {
            let machine = numbers.next()? as usize;
            let mut demands = vec![0; machines];
            *demands.get_mut(machine).ok_or("no such machine")? = 1;
            let next = project.jobs.len() + 1;
            project.jobs.push(ProjectJob {
                duration: numbers.next()?,
                demands,
                successors: if place < machines { vec![next] } else { vec![] },
            });
        }
    }
    numbers.end()?;
    Ok(project)
}

/// A file of either layout, known by its headings.
pub fn instance(text: &str) -> Result<Project, String> {
    if text.split('\n').any(|line| has_heading(line, PRECEDENCES)) {
        psplib(text)
    } else {
        patterson(text)
    }
}

/// A file of any of the three kinds.
pub fn any(text: &str) -> Result<Project, String> {
    instance(text).or_else(|why| jobshop(text).map_err(|_| why))
}
