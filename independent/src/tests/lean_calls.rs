//! That calls from a seed meet spare members often, and together with all that
//! could hide a mistake about them.

use super::calls::{COUNT, SEED};
use crate::answers::Answer;
use crate::calls::drawn;
use crate::joblist::{good_jobs, Job, Supply, Times};
use crate::lines::{read, Call};
use crate::reasons::{full, lean, Naming};
use crate::record::{shown, Record, RECORD_WORDS};
use crate::replay::{check, Replay};
use crate::timetable::narrow_naming;
use std::collections::BTreeMap;

/// How many jobs each record of the run names; none where it is refused.
fn names(naming: Naming, times: &Times, supply: &Supply, log: &[u32]) -> Vec<u32> {
    let mut log = log.to_vec();
    match narrow_naming(naming, &mut times.clone(), supply, &mut log) {
        Answer::Settled(count) | Answer::Clash(count, _) => {
            let records = log.chunks_exact(RECORD_WORDS).take(count);
            records.map(|words| words[3]).collect()
        }
        _ => Vec::new(),
    }
}

fn of_narrow(times: &Times, supply: &Supply, log: &[u32]) -> Vec<String> {
    let all = names(full, times, supply, log);
    let kept = names(lean, times, supply, log);
    let dropped: Vec<u32> = all
        .iter()
        .zip(&kept)
        .map(|(all, kept)| all - kept)
        .collect();
    let facts = [
        (dropped.iter().any(|&dropped| dropped > 0), "dropped"),
        (dropped.iter().any(|&dropped| dropped > 4), "many dropped"),
        (
            all.iter()
                .zip(&kept)
                .any(|(&all, &kept)| kept > 1 && all > kept),
            "some kept",
        ),
        (
            all.len() > 1 && dropped.iter().skip(1).any(|&dropped| dropped > 0),
            "dropped later",
        ),
    ];
    let facts = facts.iter().filter(|(fact, _)| *fact);
    facts.map(|(_, word)| format!("narrow {word}")).collect()
}

/// Some member is spare, whatever else is wrong with the record.
fn has_spare(jobs: &[Job], supply: &Supply, record: &Record) -> bool {
    let demand = |k: usize| jobs.get(k).map_or(0, |job| job.r);
    let members = record.members.numbers();
    let named: i64 = members.iter().map(|&k| demand(k)).sum();
    let rest = |&k: &usize| named + demand(record.job as usize) - demand(k);
    members.iter().any(|k| rest(k) > i64::from(supply.cap))
}

fn of_rejected(
    jobs: &[Job],
    supply: &Supply,
    record: &Record,
    code: u32,
    place: usize,
) -> Vec<String> {
    let mut words = Vec::new();
    if has_spare(jobs, supply, record) {
        words.push(format!("check {code} and spare"));
    }
    if code == 27 && place > 0 {
        words.push("check 27 later".to_string());
    }
    if code == 27 && record.count > 5 {
        words.push("check 27 many".to_string());
    }
    words
}

/// What the members of a record that is taken are.
fn of_taken(jobs: &[Job], supply: &Supply, record: &Record) -> Vec<String> {
    let (j, t) = (record.job as usize, i64::from(record.time));
    let cap = i64::from(supply.cap);
    let mut words = Vec::new();
    if record.members != lean(jobs, cap, j, t) {
        words.push("check other members".to_string());
    }
    if record.count > 1 && record.members == full(jobs, cap, j, t) {
        words.push("check all members".to_string());
    }
    words
}

fn of_check(times: &Times, supply: &Supply, count: u64, log: &[u32]) -> Vec<String> {
    let answer = check(&mut times.clone(), supply, count, log);
    if matches!(answer, Answer::Refused(_)) {
        return Vec::new();
    }
    let jobs = good_jobs(times, supply).expect("it was not refused");
    let mut replay = Replay::new(jobs, supply);
    let mut words = Vec::new();
    for place in 0..count {
        let record = Record::from_words(shown(place, log));
        let before = replay.jobs.clone();
        match replay.take(&record) {
            Ok(()) => words.extend(of_taken(&before, supply, &record)),
            Err(code) => {
                words.extend(of_rejected(&before, supply, &record, code, place as usize));
                break;
            }
        }
    }
    words.sort();
    words.dedup();
    words
}

fn uses(line: &[u8]) -> Vec<String> {
    match read(line) {
        Some(Call::Narrow(times, supply, log)) => of_narrow(&times, &supply, &log),
        Some(Call::Check(times, supply, count, log)) => of_check(&times, &supply, count, &log),
        _ => Vec::new(),
    }
}

/// The least number of each use.
const OFTEN: [(&str, usize); 15] = [
    ("narrow dropped", 280),
    ("narrow many dropped", 50),
    ("narrow some kept", 160),
    ("narrow dropped later", 120),
    ("check other members", 70),
    ("check all members", 220),
    ("check 20 and spare", 10),
    ("check 21 and spare", 30),
    ("check 22 and spare", 100),
    ("check 23 and spare", 15),
    ("check 25 and spare", 20),
    ("check 26 and spare", 10),
    ("check 27 and spare", 80),
    ("check 27 later", 20),
    ("check 27 many", 30),
];

#[test]
fn every_use_comes_up_often() {
    let mut counts: BTreeMap<String, usize> = BTreeMap::new();
    for found in drawn(SEED, COUNT).flat_map(|line| uses(&line)) {
        *counts.entry(found).or_default() += 1;
    }
    assert_eq!(counts.get("check 24 and spare"), None);
    for (wanted, least) in OFTEN {
        let count = counts.get(wanted).copied().unwrap_or(0);
        assert!(count >= least, "{wanted} {count}");
    }
}
