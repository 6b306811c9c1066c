//! Calls of every full size: so many jobs that a word of members, or the lists
//! themselves, are just full, one job less and one more; each call and answer.

use crate::calls::last::{self, Quad};
use crate::calls::narrowing::{busy, own_records};
use crate::calls::{foreign, lists as any, marking, shapes};
use crate::joblist::{lists, Supply, Times, MOST_TIME};
use crate::lines::Call;
use crate::random::Random;
use crate::record::{Members, Record, MEMBER_BITS, RECORD_WORDS};
use crate::timetable::{record, Side};

pub const SIZES: [usize; 15] = [
    0, 1, 2, 31, 32, 33, 63, 64, 65, 127, 128, 129, 255, 256, 257,
];

fn log_of(records: &[Record]) -> Vec<u32> {
    records.iter().flat_map(Record::words).collect()
}

fn narrow((times, supply): &(Times, Supply), words: usize) -> Call {
    Call::Narrow(times.clone(), supply.clone(), vec![7; words])
}

fn check_log((times, supply): &(Times, Supply), count: usize, log: Vec<u32>) -> Call {
    Call::Check(times.clone(), supply.clone(), count as u64, log)
}

fn check(of: &(Times, Supply), records: &[Record]) -> Call {
    check_log(of, records.len(), log_of(records))
}

/// The run and the check of its log with a word less, where there is one, and
/// with a word more.
fn ragged(of: &(Times, Supply)) -> Vec<Call> {
    let records = own_records(&of.0, &of.1).unwrap_or_default();
    let words = records.len() * RECORD_WORDS;
    let lengths = [words.checked_sub(1), Some(words + 1)];
    let asked = |length: usize| {
        let mut log = log_of(&records);
        log.resize(length, 7);
        [narrow(of, length), check_log(of, records.len(), log)]
    };
    lengths.into_iter().flatten().flat_map(asked).collect()
}

/// The record with one fault, for each of the codes 21 to 25.
fn spoilt(record: &Record, jobs: usize) -> Vec<Record> {
    let faults: [fn(&mut Record, usize); 8] = [
        |record, jobs| record.job = jobs as u32,
        |record, _| record.side = 2,
        |record, _| record.time = MOST_TIME + 1,
        |record, _| record.members.put(record.job as usize),
        |record, jobs| record.members.put(jobs.min(MEMBER_BITS - 1)),
        |record, _| record.count += 1,
        |record, _| (record.members, record.count) = (Members::default(), 0),
        |record, _| record.time += 2,
    ];
    let with = |fault: &fn(&mut Record, usize)| {
        let mut spoilt = record.clone();
        fault(&mut spoilt, jobs);
        spoilt
    };
    faults.iter().map(with).collect()
}

/// The run with room and without, and the check of its log, good and bad.
fn run(of: &(Times, Supply), jobs: usize) -> Vec<Call> {
    let records = own_records(&of.0, &of.1).unwrap_or_default();
    let words = records.len() * RECORD_WORDS;
    let lengths = [
        words,
        words.saturating_sub(RECORD_WORDS),
        words + RECORD_WORDS,
    ];
    let mut calls: Vec<Call> = lengths.map(|length| narrow(of, length)).to_vec();
    calls.push(check(of, &records));
    if let Some(last) = records.last() {
        calls.push(check(of, &[&records, &records[..1]].concat()));
        let spoilt = spoilt(last, jobs).into_iter();
        calls.extend(spoilt.map(|spoilt| check(of, &[spoilt])));
        let mut spare = of.clone();
        spare.1.dem[last.job as usize] += 1;
        calls.push(check(&spare, &records));
    }
    calls
}

/// The first job's window closed at its end, which no run does.
fn closed_at_its_end(jobs: usize, (moved, other): (usize, usize)) -> Option<Call> {
    if jobs > MEMBER_BITS {
        return None;
    }
    let of = last::with(jobs, &[(moved, (0, 2, 2, 1)), (other, (0, 2, 2, 1))]);
    let mut members = Members::default();
    members.put(other);
    Some(check(&of, &[record(moved, Side::End, 1, members)]))
}

/// Each call for lists in which only the last job is not as it should be.
fn at_fault(jobs: usize) -> Vec<Call> {
    let asked = |of: &(Times, Supply)| {
        let overload = Call::Overload(of.0.clone());
        [narrow(of, RECORD_WORDS), check(of, &[]), overload]
    };
    last::at_fault(jobs).iter().flat_map(asked).collect()
}

/// All jobs together just fit and just do not; the last one alone does not; all
/// follow one another.
fn overload(jobs: usize) -> Vec<Call> {
    let all = jobs as u32;
    let same = |end: u32| lists(1, &vec![(0, end, 1, 1); jobs]).0;
    let in_turn: Vec<Quad> = (0..all).map(|k| (k, k + 1, 1, 1)).collect();
    let mut calls = vec![same(all), same(all.saturating_sub(1)), lists(1, &in_turn).0];
    if let Some(last) = jobs.checked_sub(1) {
        let mut times = lists(1, &in_turn).0;
        times.dur[last] = 2;
        calls.push(times);
    }
    calls.into_iter().map(Call::Overload).collect()
}

/// The last of so many records, and the one behind it.
fn shown(jobs: usize) -> [Call; 2] {
    let log: Vec<u32> = (0..(jobs * RECORD_WORDS) as u32).collect();
    let last = jobs.saturating_sub(1) as u64;
    [last, jobs as u64].map(|k| Call::Record(k, log.clone()))
}

/// Lists of so many jobs drawn from the seed, and their logs.
fn drawn(random: &mut Random, jobs: usize) -> Vec<Call> {
    let (times, supply, records) = busy(random, |random| {
        let shape = shapes::of(random, jobs as u32);
        any::packed(random, &shape)
    });
    let foreign = foreign::records(random, &times, &supply);
    let of = (times, supply);
    let mut calls = vec![narrow(&of, records.len() * RECORD_WORDS)];
    calls.extend([check(&of, &records), check(&of, &foreign)]);
    calls.extend([(); 3].map(|()| {
        let shape = shapes::for_one_of(random, jobs as u32);
        Call::Overload(any::drawn(random, &shape).0)
    }));
    calls
}

pub fn calls(random: &mut Random) -> Vec<Call> {
    let mut calls = Vec::new();
    for jobs in SIZES {
        for pair in last::pairs(jobs) {
            for side in [Side::Start, Side::End] {
                calls.extend(run(&last::leaving(jobs, pair, side), jobs));
            }
            calls.extend(run(&last::shut_out(jobs, pair), jobs));
            calls.extend(closed_at_its_end(jobs, pair));
        }
        calls.extend(run(&last::with(jobs, &[]), jobs));
        calls.extend(run(&last::overdrawn(jobs), jobs));
        calls.extend(ragged(&last::with(jobs, &[])));
        calls.extend(ragged(&last::overdrawn(jobs)));
        calls.extend(at_fault(jobs));
        calls.extend(overload(jobs));
        calls.extend(shown(jobs));
        calls.extend(drawn(random, jobs));
        calls.extend(marking::calls(random, jobs));
    }
    calls
}
