//! Logs that are taken, with other members: all that 01 names, others that are
//! as needed, one more, one less, and spare ones beside every earlier fault.

use crate::joblist::{good_jobs, Job, Supply, Times, MOST_TIME};
use crate::random::Random;
use crate::reasons::{dropped, full};
use crate::record::{Members, Record, MEMBER_BITS};
use crate::replay::Replay;
use std::cmp::Reverse;

/// The members in one of the orders in which spare ones may be dropped.
fn order(random: &mut Random, jobs: &[Job], members: &Members) -> Vec<usize> {
    let rising = members.numbers();
    let any: Vec<usize> = random.order(rising.len());
    let mut order = rising.clone();
    match random.below(5) {
        0 => {}
        1 => order.reverse(),
        2 => order.sort_by_key(|&k| jobs[k].r),
        3 => order.sort_by_key(|&k| Reverse(jobs[k].r)),
        _ => order = any.iter().map(|&place| rising[place]).collect(),
    }
    order
}

/// Members of whom none is spare, mostly not those of the writer.
pub fn needed(random: &mut Random, jobs: &[Job], cap: i64, j: usize, t: i64) -> Members {
    let members = full(jobs, cap, j, t);
    let order = order(random, jobs, &members);
    dropped(jobs, cap, j, members, &order)
}

/// The windows at which a record is taken, and the capacity.
struct Reached {
    jobs: Vec<Job>,
    cap: i64,
}

fn name(record: &mut Record, members: Members) {
    record.members = members;
    record.count = members.ones();
}

impl Reached {
    fn all(&self, record: &Record) -> Members {
        let (j, t) = (record.job as usize, i64::from(record.time));
        full(&self.jobs, self.cap, j, t)
    }

    fn name_all(&self, record: &mut Record) {
        name(record, self.all(record));
    }

    fn name_needed(&self, random: &mut Random, record: &mut Record) {
        let (j, t) = (record.job as usize, i64::from(record.time));
        name(record, needed(random, &self.jobs, self.cap, j, t));
    }

    /// One of 01's members more, where one was dropped.
    fn name_one_more(&self, random: &mut Random, record: &mut Record) {
        let mut others = self.all(record).numbers();
        others.retain(|&k| !record.members.has(k));
        if !others.is_empty() {
            let mut members = record.members;
            members.put(random.pick(&others));
            name(record, members);
        }
    }

    /// A job that cannot be named, as a member.
    fn name_bad(&self, random: &mut Random, record: &mut Record) {
        let draws_nothing = |&k: &usize| self.jobs[k].p == 0 || self.jobs[k].r == 0;
        let mut bad: Vec<usize> = (0..self.jobs.len()).filter(draws_nothing).collect();
        bad.push(record.job as usize);
        bad.push(self.jobs.len());
        bad.retain(|&k| k < MEMBER_BITS);
        let mut members = record.members;
        members.put(random.pick(&bad));
        name(record, members);
    }

    /// A job that draws, but not for certain at the time, as a member.
    fn name_untrue(&self, random: &mut Random, record: &mut Record) {
        let all = self.all(record);
        let draws = |k: usize| self.jobs[k].p >= 1 && self.jobs[k].r >= 1;
        let untrue = |&k: &usize| draws(k) && !all.has(k) && k != record.job as usize;
        let untrue: Vec<usize> = (0..self.jobs.len()).filter(untrue).collect();
        if !untrue.is_empty() {
            let mut members = record.members;
            members.put(random.pick(&untrue));
            name(record, members);
        }
    }

    /// All that 01 names, and a fault that is found before spare members.
    fn name_all_badly(&self, random: &mut Random, record: &mut Record) {
        self.name_all(record);
        match random.below(8) {
            0 => record.job = self.jobs.len() as u32,
            1 => record.side = 2,
            2 => record.time = MOST_TIME + 1,
            3 => self.name_bad(random, record),
            4 => record.count += 1,
            5 => record.count = record.count.saturating_sub(1),
            6 => record.time = (record.time + 1).min(MOST_TIME),
            _ => self.name_untrue(random, record),
        }
    }
}

fn name_one_less(random: &mut Random, record: &mut Record) {
    let named = record.members.numbers();
    if !named.is_empty() {
        let mut members = record.members;
        members.drop(random.pick(&named));
        name(record, members);
    }
}

/// What each record of a log that is taken is taken at.
fn replayed(times: &Times, supply: &Supply, records: &[Record]) -> Vec<Reached> {
    let jobs = good_jobs(times, supply).unwrap_or_default();
    let mut replay = Replay::new(jobs, supply);
    let mut reached = Vec::new();
    for record in records {
        reached.push(Reached {
            jobs: replay.jobs.clone(),
            cap: i64::from(supply.cap),
        });
        replay.take(record).expect("a log that is taken");
    }
    reached
}

/// The place of a record that has dropped members, if there is one: often the
/// last of them.
fn place(random: &mut Random, reached: &[Reached], records: &[Record]) -> usize {
    let shorter = |&k: &usize| reached[k].all(&records[k]) != records[k].members;
    let shorter: Vec<usize> = (0..records.len()).filter(shorter).collect();
    match shorter.last() {
        None => random.below(records.len()),
        Some(&last) if random.one_in(2) => last,
        Some(_) => random.pick(&shorter),
    }
}

/// Puts the record once more behind itself, with all members that 01 names: it
/// tightens nothing then, or follows a closed window.
fn repeat(reached: &Reached, records: &mut Vec<Record>, place: usize) {
    let mut again = records[place].clone();
    reached.name_all(&mut again);
    records.insert(place + 1, again);
}

/// Renames members in a log that is taken.
pub fn rename(random: &mut Random, times: &Times, supply: &Supply, records: &mut Vec<Record>) {
    if records.is_empty() {
        return;
    }
    let reached = replayed(times, supply, records);
    let place = place(random, &reached, records);
    let here = &reached[place];
    let each = reached.iter().zip(records.iter_mut());
    match random.below(14) {
        0..=2 => each.for_each(|(at, record)| at.name_all(record)),
        3..=5 => each.for_each(|(at, record)| at.name_needed(random, record)),
        6 => here.name_all(&mut records[place]),
        7 => {
            here.name_needed(random, &mut records[place]);
            here.name_one_more(random, &mut records[place]);
        }
        8 => name_one_less(random, &mut records[place]),
        9 => {
            here.name_one_more(random, &mut records[place]);
            name_one_less(random, &mut records[place]);
        }
        10 => repeat(here, records, place),
        _ => here.name_all_badly(random, &mut records[place]),
    }
}
