//! Runs whose members are named as 01 has them, and without the spare ones: by
//! brute force over all sets of 01's members (02, Item 7).

use super::lean::written;
use super::{run, small_lists};
use crate::answers::Answer;
use crate::joblist::{good_jobs, lists, Job, Supply, Times};
use crate::random::Random;
use crate::reasons::{full, Naming};
use crate::record::{Record, RECORD_WORDS};
use crate::replay::{check, Replay};
use crate::timetable::narrow_naming;

/// Crowded lists of up to eight jobs, many of them sure at time 3.
fn crowded_lists(random: &mut Random) -> (Times, Supply) {
    let mut jobs = Vec::new();
    let most = random.between(1, 5);
    for _ in 0..random.between(2, 8) {
        let p = random.between(1, 4);
        let e = 3 - random.between(0, p - 1).min(3);
        let late = if random.one_in(3) { 5 } else { 3 - e };
        jobs.push((
            e,
            e + p + random.between(0, late),
            p,
            random.between(0, most),
        ));
    }
    lists(random.between(0, 3 * most), &jobs)
}

fn any_lists(random: &mut Random) -> (Times, Supply) {
    match random.below(2) {
        0 => small_lists(random),
        _ => crowded_lists(random),
    }
}

/// The run whose members are named so.
fn run_naming(naming: Naming, times: &Times, supply: &Supply) -> (Answer, Times, Vec<Record>) {
    let (mut after, mut log) = (times.clone(), vec![0; 100 * RECORD_WORDS]);
    let answer = narrow_naming(naming, &mut after, supply, &mut log);
    (answer, after, written(answer, &log))
}

/// The windows before each record that is taken.
fn replayed(times: &Times, supply: &Supply, records: &[Record]) -> Vec<Vec<Job>> {
    let mut replay = Replay::new(good_jobs(times, supply).unwrap(), supply);
    let mut reached = Vec::new();
    for record in records {
        reached.push(replay.jobs.clone());
        replay.take(record).unwrap();
    }
    reached
}

/// Whether the moved job and these members together exceed the capacity.
fn exceed(jobs: &[Job], supply: &Supply, job: u32, members: &[usize]) -> bool {
    let all = [&[job as usize], members].concat();
    all.iter().map(|&k| jobs[k].r).sum::<i64>() > i64::from(supply.cap)
}

fn without(members: &[usize], k: usize) -> Vec<usize> {
    members.iter().copied().filter(|&m| m != k).collect()
}

fn has_spare(jobs: &[Job], supply: &Supply, record: &Record) -> bool {
    let members = record.members.numbers();
    let rest_exceeds = |&k: &usize| exceed(jobs, supply, record.job, &without(&members, k));
    members.iter().any(rest_exceeds)
}

/// All sets of these numbers, such that one comes before another if it lacks the
/// lowest number in which they differ.
fn sets(numbers: &[usize]) -> Vec<Vec<usize>> {
    let Some((&lowest, others)) = numbers.split_first() else {
        return vec![Vec::new()];
    };
    let lack = sets(others);
    let have = lack.iter().map(|set| [&[lowest], set.as_slice()].concat());
    let have: Vec<Vec<usize>> = have.collect();
    [lack, have].concat()
}

#[test]
fn the_members_are_the_first_set_that_exceeds_the_capacity() {
    let mut random = Random::new(21);
    let mut shorter = 0;
    for _ in 0..4_000 {
        let (times, supply) = any_lists(&mut random);
        let (answer, _, log) = run(&times, &supply);
        let records = written(answer, &log);
        for (record, jobs) in records.iter().zip(replayed(&times, &supply, &records)) {
            let (j, t) = (record.job as usize, i64::from(record.time));
            let all = full(&jobs, i64::from(supply.cap), j, t).numbers();
            let mut sets = sets(&all).into_iter();
            let first = sets.find(|set| exceed(&jobs, &supply, record.job, set));
            assert_eq!(Some(record.members.numbers()), first);
            assert!(!has_spare(&jobs, &supply, record));
            shorter += usize::from(record.members.numbers() != all);
        }
    }
    assert!(shorter > 1_000, "{shorter}");
}

fn moves(records: &[Record]) -> Vec<[u32; 3]> {
    let moves = records.iter().map(|r| [r.job, r.side, r.time]);
    moves.collect()
}

#[test]
fn moves_windows_and_answers_are_those_of_full_members() {
    let mut random = Random::new(22);
    for _ in 0..4_000 {
        let (times, supply) = any_lists(&mut random);
        let (answer, narrowed, log) = run(&times, &supply);
        let (same, after, old) = run_naming(full, &times, &supply);
        assert_eq!((answer, narrowed), (same, after));
        assert_eq!(moves(&written(answer, &log)), moves(&old));
    }
}

#[test]
fn a_log_of_the_old_kind_is_taken_up_to_its_first_spare_member() {
    let mut random = Random::new(23);
    let (mut rejected, mut later, mut taken) = (0, 0, 0);
    for _ in 0..4_000 {
        let (times, supply) = any_lists(&mut random);
        let (answer, _, log) = run(&times, &supply);
        let reached = replayed(&times, &supply, &written(answer, &log));
        let (_, _, old) = run_naming(full, &times, &supply);
        let words: Vec<u32> = old.iter().flat_map(Record::words).collect();
        let said = check(&mut times.clone(), &supply, old.len() as u64, &words);
        let mut places = old.iter().zip(&reached);
        match places.position(|(record, jobs)| has_spare(jobs, &supply, record)) {
            Some(place) => {
                assert_eq!(said, Answer::Rejected(place, 27));
                rejected += 1;
                later += usize::from(place > 0);
            }
            None => {
                assert!(!matches!(said, Answer::Rejected(..)));
                taken += usize::from(!old.is_empty());
            }
        }
    }
    assert!(rejected > 500 && later > 50 && taken > 500);
}

#[test]
fn every_crowded_log_written_is_taken_to_the_same_end() {
    let mut random = Random::new(24);
    for _ in 0..4_000 {
        let (times, supply) = crowded_lists(&mut random);
        let (answer, narrowed, log) = run(&times, &supply);
        let count = written(answer, &log).len();
        let mut checked = times.clone();
        let said = check(&mut checked, &supply, count as u64, &log);
        let expected = match answer {
            Answer::Settled(count) => Answer::Holds(count),
            other => other,
        };
        assert_eq!((said, checked), (expected, narrowed));
    }
}
