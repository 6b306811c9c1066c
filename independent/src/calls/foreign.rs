//! Logs by another hand: another order, other times and other members.

use crate::calls::naming::needed;
use crate::calls::narrowing::own_records;
use crate::joblist::{good_jobs, Supply, Times};
use crate::random::Random;
use crate::record::Record;
use crate::replay::Replay;
use crate::timetable::{record, Side};

/// A true reason to move a job drawn at random, if there is one at the time
/// drawn, with no member to spare.
fn foreign_record(random: &mut Random, reached: &Replay, supply: &Supply) -> Option<Record> {
    let jobs = &reached.jobs;
    let j = random.below(jobs.len());
    let job = jobs[j];
    let duration = usize::try_from(job.p).ok().filter(|&p| p > 0)?;
    let ahead = random.below(duration) as i64;
    let (side, time) = match random.below(2) {
        0 => (Side::Start, job.e + ahead),
        _ => (Side::End, job.l - job.p + ahead),
    };
    let members = needed(random, jobs, i64::from(supply.cap), j, time);
    let record = record(j, side, time, members);
    reached.clone().take(&record).ok().map(|()| record)
}

/// Takes records until a window is closed or there were so many tries; a record
/// that would close one is left out where none may be.
fn taken(random: &mut Random, reached: &mut Replay, supply: &Supply, closing: bool) -> Vec<Record> {
    let mut records = Vec::new();
    let tries = if reached.jobs.is_empty() { 0 } else { 40 };
    for _ in 0..tries {
        if reached.closed.is_some() {
            break;
        }
        let Some(record) = foreign_record(random, reached, supply) else {
            continue;
        };
        let mut next = reached.clone();
        next.take(&record).expect("it was taken before");
        if closing || next.closed.is_none() {
            *reached = next;
            records.push(record);
        }
    }
    records
}

/// The records of a log that is taken.
pub fn records(random: &mut Random, times: &Times, supply: &Supply) -> Vec<Record> {
    let jobs = good_jobs(times, supply).unwrap_or_default();
    taken(random, &mut Replay::new(jobs, supply), supply, true)
}

/// The records of a log that is taken and ends as the run does: another hand's,
/// up to one that may close a window or without such ones, and then those of the
/// run on the windows reached.
pub fn finished(random: &mut Random, times: &Times, supply: &Supply) -> Vec<Record> {
    let jobs = good_jobs(times, supply).unwrap_or_default();
    let mut reached = Replay::new(jobs, supply);
    let closing = random.one_in(3);
    let mut records = taken(random, &mut reached, supply, closing);
    if reached.closed.is_none() {
        let mut windows = times.clone();
        windows.rewrite(&reached.jobs);
        records.extend(own_records(&windows, supply).unwrap_or_default());
    }
    records
}
