//! Calls of every full size that mark the jobs of a clash: the last job by the
//! closing record, by an earlier one and not at all, all jobs, and each refusal.

use crate::calls::conflicts::just_too_small;
use crate::calls::last;
use crate::calls::narrowing::own_records;
use crate::calls::{foreign, lists, shapes};
use crate::joblist::{Supply, Times};
use crate::lines::Call;
use crate::random::Random;
use crate::record::{Members, Record, MEMBER_BITS, RECORD_WORDS};
use crate::timetable::{record, Side};

type Lists = (Times, Supply);

fn log_of(records: &[Record]) -> Vec<u32> {
    records.iter().flat_map(Record::words).collect()
}

fn asked((times, supply): &Lists, count: usize, log: Vec<u32>) -> Call {
    Call::Conflict(times.clone(), supply.clone(), count as u64, log)
}

fn ask(of: &Lists, records: &[Record]) -> Call {
    asked(of, records.len(), log_of(records))
}

fn own(of: &Lists) -> Vec<Record> {
    own_records(&of.0, &of.1).unwrap_or_default()
}

/// The record that moves the start of job j for one member.
fn start(j: usize, t: i64, member: usize) -> Record {
    let mut members = Members::default();
    members.put(member);
    record(j, Side::Start, t, members)
}

/// A job's only time is taken by a second, which had to start behind a third.
fn behind(jobs: usize, named: [usize; 3]) -> Vec<Call> {
    let of = last::behind(jobs, named);
    let mut calls = vec![ask(&of, &own(&of))];
    if jobs <= MEMBER_BITS {
        let [a, b, c] = named;
        calls.push(ask(&of, &[start(b, 1, c), start(a, 3, b)]));
    }
    calls
}

/// Marks that go from record to record; in the second log a record before them
/// moves the fifth job for the fourth, and has no part in the clash.
fn in_a_row(jobs: usize, [a, b, c, d, aside]: [usize; 5]) -> Vec<Call> {
    let (mut times, supply) = last::in_a_row(jobs, [a, b, c, d]);
    (times.est[aside], times.lct[aside]) = (0, 9);
    let of = (times, supply);
    let mut calls = vec![ask(&of, &own(&of))];
    if jobs <= MEMBER_BITS {
        let (needed, closing) = ([start(c, 1, d), start(b, 4, c)], start(a, 6, b));
        let moved = start(aside, 0, d);
        let log = [&[moved][..], &needed, &[closing]].concat();
        calls.push(ask(&of, &log));
    }
    calls
}

/// The third job is marked as it was when it moved the second: what moves it after
/// that is not, and what moves it before is.
fn moved_later(jobs: usize, named: [usize; 4]) -> Vec<Call> {
    let of = last::moved_later(jobs, named);
    if jobs > MEMBER_BITS {
        return Vec::new();
    }
    let [a, b, c, d] = named;
    let (moved, later, closing) = (start(b, 1, c), start(c, 0, d), start(a, 3, b));
    let before = [later.clone(), moved.clone(), closing.clone()];
    vec![ask(&of, &[moved, later, closing]), ask(&of, &before)]
}

/// A clash log as it is not taken: each refusal that its length, its count and
/// its last record can bring.
fn refused(of: &Lists) -> Vec<Call> {
    let records = own(of);
    let (count, log) = (records.len(), log_of(&records));
    let longer = [&log[..], &[7; RECORD_WORDS]].concat();
    let mut calls = vec![
        asked(of, count + 1, log.clone()),
        asked(of, count + 1, longer.clone()),
        asked(of, count, longer),
        asked(of, count, [&log[..], &[7]].concat()),
        asked(of, 0, log.clone()),
    ];
    if let Some((closing, earlier)) = records.split_last() {
        let mut spoilt = closing.clone();
        spoilt.count += 1;
        calls.push(ask(of, &[earlier, &[spoilt]].concat()));
        calls.push(ask(of, earlier));
        calls.push(asked(of, count, log[1..].to_vec()));
    }
    calls
}

/// Lists in which only the last job is not as it should be, with no record and
/// with one.
fn at_fault(jobs: usize) -> Vec<Call> {
    let one = [start(0, 0, 1)];
    let each = |of: &Lists| [ask(of, &[]), ask(of, &one)];
    last::at_fault(jobs).iter().flat_map(each).collect()
}

/// Lists of so many jobs drawn from the seed.
fn drawn(random: &mut Random, jobs: usize) -> Vec<Call> {
    let shape = shapes::of(random, jobs as u32);
    let (times, supply) = lists::packed(random, &shape);
    let supply = just_too_small(&times, &supply);
    let foreign = foreign::finished(random, &times, &supply);
    let of = (times, supply);
    vec![ask(&of, &own(&of)), ask(&of, &foreign)]
}

/// All of them for so many jobs.
pub fn calls(random: &mut Random, jobs: usize) -> Vec<Call> {
    let mut calls = vec![ask(&last::with(jobs, &[]), &[])];
    for of in [last::overdrawn(jobs), last::one_too_many(jobs)] {
        calls.push(ask(&of, &own(&of)));
        calls.extend(refused(&of));
    }
    for pair in last::pairs(jobs) {
        let of = last::shut_out(jobs, pair);
        calls.push(ask(&of, &own(&of)));
    }
    if jobs > 2 {
        let last = jobs - 1;
        for named in [[0, 1, last], [1, last, 0], [last, 0, 1]] {
            calls.extend(behind(jobs, named));
            calls.extend(refused(&last::behind(jobs, named)));
        }
    }
    if jobs > 4 {
        let last = jobs - 1;
        let mut named = [0, 1, 2, 3, last];
        for _ in 0..named.len() {
            calls.extend(in_a_row(jobs, named));
            calls.extend(moved_later(jobs, [named[0], named[1], named[2], named[4]]));
            named.rotate_left(1);
        }
    }
    calls.extend(at_fault(jobs));
    calls.extend(drawn(random, jobs));
    calls
}
