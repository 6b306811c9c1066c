//! The marked jobs of drawn lists by themselves: no schedule by exhaustion, a
//! clash by narrowing, and each one traced to the closing record (02, Item 14).

use super::run;
use crate::answers::Answer;
use crate::calls::foreign;
use crate::conflict::conflict;
use crate::joblist::{lists, Supply, Times};
use crate::random::Random;
use crate::record::{Members, Record, RECORD_WORDS};
use crate::replay::check;

/// Up to eight jobs in a short time, a few too long for their windows.
fn crowded(random: &mut Random) -> (Times, Supply) {
    let most = random.between(1, 3);
    let mut jobs = Vec::new();
    for _ in 0..random.between(2, 8) {
        let e = random.between(0, 6);
        let p = random.between(0, 4);
        let slack = random.between(0, 3);
        let late = if random.one_in(60) { 0 } else { p };
        jobs.push((e, e + late + slack, p, random.between(0, most)));
    }
    lists(random.between(most - 1, 2 * most), &jobs)
}

/// The writer's records or those of another hand, if they end in a clash.
fn clash_log(random: &mut Random, times: &Times, supply: &Supply) -> Option<Vec<Record>> {
    let records = match random.below(2) {
        0 => foreign::records(random, times, supply),
        _ => {
            let (answer, _, log) = run(times, supply);
            let Answer::Clash(count, _) = answer else {
                return None;
            };
            let words = log.chunks_exact(RECORD_WORDS).take(count);
            words.map(Record::from_words).collect()
        }
    };
    let said = check(
        &mut times.clone(),
        supply,
        records.len() as u64,
        &words(&records),
    );
    matches!(said, Answer::Clash(..)).then_some(records)
}

fn words(records: &[Record]) -> Vec<u32> {
    records.iter().flat_map(Record::words).collect()
}

fn alone(times: &Times, supply: &Supply, marked: &[usize]) -> (Times, Supply) {
    let job = |&k: &usize| (times.est[k], times.lct[k], times.dur[k], supply.dem[k]);
    let jobs: Vec<_> = marked.iter().map(job).collect();
    lists(supply.cap, &jobs)
}

/// Whether the jobs from k on have starts beside what is drawn already.
fn has_schedule(times: &Times, supply: &Supply, k: usize, drawn: &[u32]) -> bool {
    if k == times.est.len() {
        return true;
    }
    let starts = times.est[k]..(times.lct[k] + 1).saturating_sub(times.dur[k]);
    starts.into_iter().any(|start| {
        let mut drawn = drawn.to_vec();
        let ticks = &mut drawn[start as usize..][..times.dur[k] as usize];
        ticks.iter_mut().for_each(|draw| *draw += supply.dem[k]);
        let fits = ticks.iter().all(|&draw| draw <= supply.cap);
        fits && has_schedule(times, supply, k + 1, &drawn)
    })
}

/// The record closes, or a later one that is traced too has its moved job.
fn is_traced(records: &[Record], place: usize) -> bool {
    let job = records[place].job as usize;
    let names = |later: &Record| later.job as usize == job || later.members.has(job);
    place + 1 == records.len()
        || (place + 1..records.len()).any(|k| names(&records[k]) && is_traced(records, k))
}

/// The record with each job's place among those marked in the place of its number.
fn renumbered(record: &Record, marked: &[usize]) -> Record {
    let place = |k: usize| marked.iter().position(|&m| m == k).expect("it is marked");
    let mut members = Members::default();
    for k in record.members.numbers() {
        members.put(place(k));
    }
    Record {
        job: place(record.job as usize) as u32,
        members,
        ..*record
    }
}

/// The marked jobs of a clash log, of which everything that is promised is true.
fn tried(times: &Times, supply: &Supply, records: &[Record]) -> Vec<usize> {
    let count = records.len() as u64;
    let (answer, set) = conflict(times, supply, count, &words(records));
    let marked = set.numbers();
    assert_eq!(answer, Answer::Marked(marked.len() as u32));
    let (few, rest) = alone(times, supply, &marked);
    assert!(!has_schedule(&few, &rest, 0, &[0; 20]));
    assert!(matches!(run(&few, &rest).0, Answer::Clash(..)));
    let traced = (0..records.len()).filter(|&place| is_traced(records, place));
    let traced: Vec<&Record> = traced.map(|place| &records[place]).collect();
    if let Some(closing) = records.last() {
        let mut named = Members::default();
        named.put(closing.job as usize);
        traced.iter().for_each(|record| named.join(&record.members));
        assert_eq!(named, set);
    }
    let own: Vec<Record> = traced.iter().map(|r| renumbered(r, &marked)).collect();
    let said = check(&mut few.clone(), &rest, own.len() as u64, &words(&own));
    assert!(matches!(said, Answer::Clash(count, _) if count == own.len()));
    marked
}

#[test]
fn marked_jobs_have_no_schedule_by_themselves() {
    let mut random = Random::new(14);
    let (mut several, mut fewer, mut aside, mut short) = (0, 0, 0, 0);
    for _ in 0..40_000 {
        let (times, supply) = crowded(&mut random);
        let Some(records) = clash_log(&mut random, &times, &supply) else {
            continue;
        };
        let marked = tried(&times, &supply, &records);
        let untraced = (0..records.len()).any(|place| !is_traced(&records, place));
        several += usize::from(marked.len() > 2);
        fewer += usize::from(marked.len() < times.est.len());
        aside += usize::from(untraced);
        short += usize::from(records.is_empty());
    }
    let met = [several, fewer, aside, short];
    let least = [1_000, 1_000, 500, 50];
    assert!(
        met.iter().zip(&least).all(|(met, least)| met > least),
        "{met:?}"
    );
}
