//! Calls that narrow, with a log of just the room needed, less or more, or a
//! ragged one.

use crate::answers::Answer;
use crate::calls::{crowds, faults, lists, ragged, short};
use crate::joblist::{Supply, Times};
use crate::lines::Call;
use crate::random::Random;
use crate::record::{Record, RECORD_WORDS};
use crate::timetable::narrow;

/// No run is followed further than this.
const MOST_RECORDS: usize = 150;

/// The records of the run on these lists, if it needs no more than are followed.
pub fn own_records(times: &Times, supply: &Supply) -> Option<Vec<Record>> {
    let mut log = vec![0; MOST_RECORDS * RECORD_WORDS];
    match narrow(&mut times.clone(), supply, &mut log) {
        Answer::Settled(count) | Answer::Clash(count, _) => {
            let places = log.chunks_exact(RECORD_WORDS).take(count);
            Some(places.map(Record::from_words).collect())
        }
        _ => None,
    }
}

/// Lists drawn in this way, with the records of their run; more often than not
/// there are some.
pub fn busy(
    random: &mut Random,
    draw: impl Fn(&mut Random) -> (Times, Supply),
) -> (Times, Supply, Vec<Record>) {
    for _ in 0..4 {
        let (times, supply) = draw(random);
        match own_records(&times, &supply) {
            Some(records) if !records.is_empty() => return (times, supply, records),
            _ => {}
        }
    }
    let (times, supply) = draw(random);
    let records = own_records(&times, &supply).unwrap_or_default();
    (times, supply, records)
}

/// Good lists of any kind.
pub fn busy_lists(random: &mut Random) -> (Times, Supply, Vec<Record>) {
    busy(random, lists::good)
}

/// Lists whose reasons have members to spare.
pub fn busy_crowds(random: &mut Random) -> (Times, Supply, Vec<Record>) {
    busy(random, |random| crowds::any(random).drawn(random))
}

/// Words as a former user may have left them.
pub fn words(random: &mut Random, length: usize) -> Vec<u32> {
    let most = random.pick(&[0, 0, 3, 40, u32::MAX]);
    (0..length).map(|_| random.between(0, most)).collect()
}

fn room(random: &mut Random, needed: usize) -> usize {
    match random.below(8) {
        0..=2 => needed,
        3..=4 => needed.saturating_sub(1),
        5 => random.below(needed + 1),
        _ => needed + random.below(4),
    }
}

/// A log in which every word shows whether it was left as it was.
fn full(random: &mut Random, length: usize) -> Vec<u32> {
    let most = random.pick(&[3, 40, u32::MAX]);
    (0..length).map(|_| random.between(1, most)).collect()
}

pub fn call(random: &mut Random) -> Call {
    let (mut times, mut supply, records) = busy_lists(random);
    let length = room(random, records.len()) * RECORD_WORDS;
    let mut log = words(random, length);
    if random.one_in(8) {
        short::put(random, &mut times);
        let length = random.pick(&[0, RECORD_WORDS, length, length]);
        log = full(random, length);
    }
    if ragged::is_due(random) {
        let length = ragged::length(random, log.len());
        log = full(random, length);
    }
    if random.one_in(8) {
        faults::spoil(random, &mut times, &mut supply);
    }
    Call::Narrow(times, supply, log)
}
