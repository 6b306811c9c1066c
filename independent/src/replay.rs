//! The checker: replays a log from the submitted windows, record by record,
//! with refusal 6 and the codes 20 to 27 in their order (01, "Log records"
//! for what a record says, "Answer table" for the codes; 02, Items 3, 7 and
//! 10).

use crate::answers::Answer;
use crate::joblist::{good_jobs_with_log, lowest_too_short, Job, Supply, Times, MOST_TIME};
use crate::reasons::named;
use crate::record::{room, shown, Record};
use crate::timetable::Side;

/// The windows reached so far, and the job whose window is closed: one that is
/// too short as submitted, so that no record may follow, or a record's.
#[derive(Clone)]
pub struct Replay {
    pub jobs: Vec<Job>,
    cap: i64,
    pub closed: Option<usize>,
}

fn unless(bad: bool, code: u32) -> Result<(), u32> {
    if bad {
        Err(code)
    } else {
        Ok(())
    }
}

fn starts_no_earlier(job: &Job, time: i64) -> bool {
    job.e >= time
}

fn starts_no_later(job: &Job, time: i64) -> bool {
    job.l - job.p <= time
}

/// What a record says of each member.
fn is_true_of_member(job: &Job, t: i64) -> bool {
    starts_no_earlier(job, t - job.p + 1) && starts_no_later(job, t)
}

/// What a record says of the moved job.
fn is_true_of_moved(job: &Job, side: Side, t: i64) -> bool {
    match side {
        Side::Start => starts_no_earlier(job, t - job.p + 1),
        Side::End => starts_no_later(job, t),
    }
}

fn tightens(job: &Job, side: Side, t: i64) -> bool {
    let moved = side.moved(*job, t);
    moved.e > job.e || moved.l < job.l
}

impl Replay {
    pub fn new(jobs: Vec<Job>, supply: &Supply) -> Replay {
        Replay {
            closed: lowest_too_short(&jobs),
            jobs,
            cap: i64::from(supply.cap),
        }
    }

    fn draws_nothing(&self, k: usize) -> bool {
        self.jobs[k].p == 0 || self.jobs[k].r == 0
    }

    /// The job, side and time of a record that is good here, or its code.
    fn judged(&self, record: &Record) -> Result<(usize, Side, i64), u32> {
        unless(self.closed.is_some(), 20)?;

        let j = record.job as usize;
        let side = Side::from_word(record.side).ok_or(21u32)?;
        let t = i64::from(record.time);
        unless(j >= self.jobs.len() || record.time > MOST_TIME, 21)?;

        let members = record.members.numbers();
        let bad_member = |&k: &usize| k >= self.jobs.len() || k == j || self.draws_nothing(k);
        unless(self.draws_nothing(j) || members.iter().any(bad_member), 22)?;

        unless(record.count != record.members.ones(), 23)?;

        let named = named(&self.jobs, j, &record.members);
        unless(named <= self.cap, 24)?;

        let untrue = |&k: &usize| !is_true_of_member(&self.jobs[k], t);
        let moved_untrue = !is_true_of_moved(&self.jobs[j], side, t);
        unless(moved_untrue || members.iter().any(untrue), 25)?;

        unless(!tightens(&self.jobs[j], side, t), 26)?;

        let spare = |&k: &usize| named - self.jobs[k].r > self.cap;
        unless(members.iter().any(spare), 27)?;
        Ok((j, side, t))
    }

    /// Takes a record and moves its window, or gives its code and moves nothing.
    pub fn take(&mut self, record: &Record) -> Result<(), u32> {
        let (j, side, t) = self.judged(record)?;
        self.jobs[j] = side.moved(self.jobs[j], t);
        if self.jobs[j].is_too_short() {
            self.closed = Some(j);
        }
        Ok(())
    }
}

/// Replays the claimed records; rewrites the windows only where they hold.
pub fn check(times: &mut Times, supply: &Supply, count: u64, log: &[u32]) -> Answer {
    let jobs = match good_jobs_with_log(times, supply, log) {
        Ok(jobs) => jobs,
        Err(number) => return Answer::Refused(number),
    };
    let count = match usize::try_from(count) {
        Ok(count) if count <= room(log) => count,
        _ => return Answer::Refused(6),
    };
    let mut replay = Replay::new(jobs, supply);
    for place in 0..count {
        let record = Record::from_words(shown(place as u64, log));
        if let Err(code) = replay.take(&record) {
            return Answer::Rejected(place, code);
        }
    }
    match replay.closed {
        Some(j) => Answer::Clash(count, j),
        None => {
            times.rewrite(&replay.jobs);
            Answer::Holds(count)
        }
    }
}
