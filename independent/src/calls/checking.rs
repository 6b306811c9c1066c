//! Calls that check: the writer's own logs, foreign logs that hold or clash,
//! and either of them with other members, with records spoiled for each of the
//! codes, or ragged.

use crate::calls::narrowing::{busy_crowds, busy_lists, words};
use crate::calls::{faults, foreign, naming, ragged, short};
use crate::joblist::{Supply, Times, MOST_TIME};
use crate::lines::Call;
use crate::random::Random;
use crate::record::{room, Record, MEMBER_BITS, RECORD_WORDS};

fn other_word(random: &mut Random, word: u32) -> u32 {
    match random.below(6) {
        0 => word.wrapping_add(1),
        1 => word.wrapping_sub(1),
        2 => word ^ (1 << random.below(32)),
        3 => random.word(),
        _ => random.between(0, 9),
    }
}

fn with_other_word(random: &mut Random, record: &Record) -> Record {
    let mut words = record.words();
    let place = random.below(RECORD_WORDS);
    words[place] = other_word(random, words[place]);
    Record::from_words(&words)
}

fn with_other_members(random: &mut Random, record: &mut Record, jobs: usize) {
    for _ in 0..random.between(1, 3) {
        let k = random.below((jobs + 2).min(MEMBER_BITS));
        match record.members.numbers().first() {
            Some(&first) if random.one_in(2) => record.members.drop(first),
            _ => record.members.put(k),
        }
    }
    record.count = record.members.ones();
}

fn near(random: &mut Random, word: u32) -> u32 {
    word.wrapping_add(random.between(0, 6)).wrapping_sub(3)
}

/// One record changed so that it is bad, or good for another reason.
fn changed(random: &mut Random, record: &Record, jobs: usize) -> Record {
    let mut changed = record.clone();
    match random.below(11) {
        0..=2 => return with_other_word(random, record),
        3 => changed.job = random.pick(&[jobs as u32, jobs as u32 + 1, MEMBER_BITS as u32]),
        4 => changed.job = random.below(jobs + 1) as u32,
        5 => changed.side = random.between(0, 3),
        6 => changed.time = random.pick(&[0, MOST_TIME, MOST_TIME + 1, u32::MAX]),
        7 => changed.time = near(random, changed.time),
        8 => changed.count = near(random, changed.count),
        _ => with_other_members(random, &mut changed, jobs),
    }
    changed
}

pub fn spoil(random: &mut Random, records: &mut Vec<Record>, jobs: usize) {
    if records.is_empty() {
        let words = words(random, RECORD_WORDS);
        records.push(Record::from_words(&words));
        return;
    }
    let place = random.below(records.len());
    match random.below(12) {
        0..=1 => {
            let again = records[place].clone();
            records.push(again);
        }
        2 => {
            let last = records.len() - 1;
            records.swap(place, last);
        }
        3 => drop(records.remove(place)),
        _ => records[place] = changed(random, &records[place], jobs),
    }
}

/// The count claimed: mostly as it should be, else less, more, or numbers
/// whose product with the record's length would wrap.
fn claimed(random: &mut Random, records: usize, log: &[u32]) -> u64 {
    let (records, room) = (records as u64, room(log) as u64);
    match random.below(24) {
        0 => random.long() % (records + 1),
        1 => room,
        2 => room + 1,
        3 => random.pick(&[1 << 32, 1 << 62, (1 << 62) + records, u64::MAX]),
        _ => records,
    }
}

/// The count claimed for a list that clashes without a record: often none.
fn claimed_of_short(random: &mut Random, records: usize, log: &[u32]) -> u64 {
    match random.below(8) {
        0..=2 => 0,
        3 => room(log) as u64 + 1,
        _ => claimed(random, records, log),
    }
}

/// The count claimed for a ragged log: often none, or what its whole records
/// come to.
fn claimed_of_ragged(random: &mut Random, records: usize, log: &[u32]) -> u64 {
    match random.below(8) {
        0 => 0,
        1..=2 => room(log) as u64,
        3 => room(log) as u64 + 1,
        _ => claimed(random, records, log),
    }
}

/// Lists and the records of a log that is mostly good or has one fault, of the
/// members named or of any other kind.
fn logged(random: &mut Random) -> (Times, Supply, Vec<Record>) {
    let renamed = random.one_in(3);
    let (times, supply, mut records) = match random.below(4) {
        0..=2 if renamed => busy_crowds(random),
        _ => busy_lists(random),
    };
    if random.one_in(3) {
        records = foreign::records(random, &times, &supply);
    }
    let mut spoilt = random.pick(&[0, 1, 1, 1, 2]);
    if renamed {
        naming::rename(random, &times, &supply, &mut records);
        spoilt = random.pick(&[0, 0, 0, 0, 0, 1]);
    }
    for _ in 0..spoilt {
        spoil(random, &mut records, times.est.len());
    }
    (times, supply, records)
}

/// What is asked of these lists and records: mostly just them, else a ragged log,
/// windows that are too short, faults in the lists.
pub fn asked(
    random: &mut Random,
    (mut times, mut supply, records): (Times, Supply, Vec<Record>),
) -> (Times, Supply, u64, Vec<u32>) {
    let mut log: Vec<u32> = records.iter().flat_map(Record::words).collect();
    let beyond = random.pick(&[0, 0, 1, 2]) * RECORD_WORDS;
    log.extend(words(random, beyond));
    let mut count = claimed(random, records.len(), &log);
    if ragged::is_due(random) {
        let length = ragged::length(random, log.len());
        log.extend(words(random, RECORD_WORDS));
        log.truncate(length);
        count = claimed_of_ragged(random, records.len(), &log);
    }
    if random.one_in(10) {
        short::put(random, &mut times);
        count = claimed_of_short(random, records.len(), &log);
    }
    if random.one_in(12) {
        faults::spoil(random, &mut times, &mut supply);
    }
    (times, supply, count, log)
}

pub fn call(random: &mut Random) -> Call {
    let logged = logged(random);
    let (times, supply, count, log) = asked(random, logged);
    Call::Check(times, supply, count, log)
}
