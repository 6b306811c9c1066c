//! Narrowing, tick by tick: sure parts, crowded times, the two time-tabling
//! rules and the writer's records (01, "Job lists", "The two time-tabling
//! rules", "Log records", "Answer table"; 02, Items 3, 7 and 10).

use crate::answers::Answer;
use crate::joblist::{good_jobs_with_log, lowest_too_short, Job, Supply, Times};
use crate::reasons::{lean, Naming};
use crate::record::{room, Members, Record, RECORD_WORDS};
use crate::rounds::in_rounds;

#[derive(Clone, Copy, Debug, PartialEq, Eq)]
pub enum Side {
    /// Side 0 moves the earliest start.
    Start,
    /// Side 1 moves the latest end.
    End,
}

impl Side {
    pub fn from_word(word: u32) -> Option<Side> {
        match word {
            0 => Some(Side::Start),
            1 => Some(Side::End),
            _ => None,
        }
    }

    pub fn word(self) -> u32 {
        match self {
            Side::Start => 0,
            Side::End => 1,
        }
    }

    /// The job with its window moved by a record at time t.
    pub fn moved(self, job: Job, t: i64) -> Job {
        match self {
            Side::Start => Job { e: t + 1, ..job },
            Side::End => Job { l: t, ..job },
        }
    }
}

fn sure_part_holds(job: &Job, t: i64) -> bool {
    job.l - job.p <= t && t < job.e + job.p
}

/// The other jobs with r ≥ 1 whose sure part holds t.
pub fn sure_others(jobs: &[Job], j: usize, t: i64) -> impl Iterator<Item = usize> + '_ {
    (0..jobs.len()).filter(move |&k| k != j && jobs[k].r >= 1 && sure_part_holds(&jobs[k], t))
}

fn is_crowded(jobs: &[Job], cap: i64, j: usize, t: i64) -> bool {
    let others = || -> i64 { sure_others(jobs, j, t).map(|k| jobs[k].r).sum() };
    jobs[j].p >= 1 && jobs[j].r >= 1 && others() + jobs[j].r > cap
}

/// The time at which the rule of this side moves job j: the greatest on
/// side 0, the least on side 1.
fn time_to_move(jobs: &[Job], cap: i64, j: usize, side: Side) -> Option<i64> {
    let Job { e, l, p, .. } = jobs[j];
    match side {
        Side::Start => (e..e + p).rev().find(|&t| is_crowded(jobs, cap, j, t)),
        Side::End => (l - p..l).find(|&t| is_crowded(jobs, cap, j, t)),
    }
}

/// The record that moves this side of job j at time t for these members.
pub fn record(j: usize, side: Side, t: i64, members: Members) -> Record {
    Record {
        job: u32::try_from(j).expect("at most 256 jobs"),
        side: side.word(),
        time: u32::try_from(t).expect("a time in a window"),
        count: members.ones(),
        members,
    }
}

/// Why the work stops before no rule applies.
enum Stop {
    Closed(usize),
    NoRoom,
}

struct Work {
    jobs: Vec<Job>,
    cap: i64,
    room: usize,
    naming: Naming,
    records: Vec<Record>,
}

impl Work {
    /// A move of this side of job j, if its rule applies.
    fn step(&mut self, j: usize, side: Side) -> Result<bool, Stop> {
        let Some(t) = time_to_move(&self.jobs, self.cap, j, side) else {
            return Ok(false);
        };
        if self.records.len() == self.room {
            return Err(Stop::NoRoom);
        }
        let members = (self.naming)(&self.jobs, self.cap, j, t);
        self.records.push(record(j, side, t, members));
        self.jobs[j] = side.moved(self.jobs[j], t);
        if self.jobs[j].is_too_short() {
            return Err(Stop::Closed(j));
        }
        Ok(true)
    }

    fn write_records(&self, log: &mut [u32]) {
        for (place, record) in log.chunks_exact_mut(RECORD_WORDS).zip(&self.records) {
            place.copy_from_slice(&record.words());
        }
    }
}

/// Narrows the windows; what becomes of windows and log is the answer table's.
pub fn narrow(times: &mut Times, supply: &Supply, log: &mut [u32]) -> Answer {
    narrow_naming(lean, times, supply, log)
}

/// Narrows the windows and names the members of every record in this way.
pub fn narrow_naming(
    naming: Naming,
    times: &mut Times,
    supply: &Supply,
    log: &mut [u32],
) -> Answer {
    let jobs = match good_jobs_with_log(times, supply, log) {
        Ok(jobs) => jobs,
        Err(number) => return Answer::Refused(number),
    };
    if let Some(j) = lowest_too_short(&jobs) {
        return Answer::Clash(0, j);
    }
    let mut work = Work {
        jobs,
        cap: i64::from(supply.cap),
        room: room(log),
        naming,
        records: Vec::new(),
    };
    match in_rounds(work.jobs.len(), |j, side| work.step(j, side)) {
        Ok(()) => {
            times.rewrite(&work.jobs);
            work.write_records(log);
            Answer::Settled(work.records.len())
        }
        Err(Stop::Closed(j)) => {
            work.write_records(log);
            Answer::Clash(work.records.len(), j)
        }
        Err(Stop::NoRoom) => {
            log.fill(0);
            Answer::Refused(5)
        }
    }
}
