//! Calls that mark the jobs of a clash: lists whose capacity is mostly just too
//! small, with the writer's own logs and logs by another hand, good ones and bad.

use crate::answers::Answer;
use crate::calls::checking::{asked, spoil};
use crate::calls::narrowing::own_records;
use crate::calls::{foreign, lists, naming};
use crate::conflict::conflict;
use crate::joblist::{Supply, Times, MOST_DEMAND};
use crate::lines::Call;
use crate::random::Random;
use crate::record::Record;
use crate::replay::check;

/// Lists of longer jobs keep the capacity they were drawn with: each one tried is a
/// run.
const MOST_TICKS: u32 = 10_000;

fn words(records: &[Record]) -> Vec<u32> {
    records.iter().flat_map(Record::words).collect()
}

/// The run on these lists ends in a clash, and is not too long to be followed.
fn clashes(times: &Times, supply: &Supply) -> bool {
    let records = own_records(times, supply).unwrap_or_default();
    let count = records.len() as u64;
    let said = check(&mut times.clone(), supply, count, &words(&records));
    matches!(said, Answer::Clash(..))
}

/// The greatest capacity at which the run clashes: one with which jobs are in
/// each other's way that could almost run together. 0 where there is none.
pub fn just_too_small(times: &Times, supply: &Supply) -> Supply {
    let total: u32 = supply.dem.iter().sum();
    let with = |cap: u32| Supply {
        cap,
        dem: supply.dem.clone(),
    };
    let (mut low, mut high) = (0, total.min(MOST_DEMAND));
    while low < high {
        let middle = high - (high - low) / 2;
        if clashes(times, &with(middle)) {
            low = middle;
        } else {
            high = middle - 1;
        }
    }
    with(low)
}

fn scarce(random: &mut Random) -> (Times, Supply) {
    let (times, mut supply) = lists::good(random);
    let ticks: u32 = times.dur.iter().sum();
    match random.below(8) {
        _ if ticks > MOST_TICKS => {}
        0 => {}
        1 => supply.cap = random.between(0, just_too_small(&times, &supply).cap),
        _ => supply = just_too_small(&times, &supply),
    }
    (times, supply)
}

/// How many jobs the run's log marks, and how many of them the closing record
/// names.
fn marked(times: &Times, supply: &Supply) -> (u32, u32) {
    let records = own_records(times, supply).unwrap_or_default();
    let (_, marked) = conflict(times, supply, records.len() as u64, &words(&records));
    let closing = records.last().map_or(0, |closing| closing.count + 1);
    (marked.ones(), closing)
}

/// Lists that are scarce, and more often than not so that several jobs are marked,
/// some of them by earlier records.
fn scarce_for_several(random: &mut Random) -> (Times, Supply) {
    let least = random.pick(&[0, 2, 3, 3, 4]);
    let by_earlier = random.pick(&[0, 1, 1, 2]);
    for _ in 0..16 {
        let (times, supply) = scarce(random);
        let (marked, closing) = marked(&times, &supply);
        if marked >= least && marked >= closing + by_earlier {
            return (times, supply);
        }
    }
    scarce(random)
}

/// Lists and the records of a log that mostly ends in a clash.
fn logged(random: &mut Random) -> (Times, Supply, Vec<Record>) {
    let (times, supply) = scarce_for_several(random);
    let mut records = match random.below(3) {
        0 => foreign::finished(random, &times, &supply),
        _ => own_records(&times, &supply).unwrap_or_default(),
    };
    match random.below(24) {
        0..=1 => naming::rename(random, &times, &supply, &mut records),
        2..=4 => spoil(random, &mut records, times.est.len()),
        5..=6 => drop(records.pop()),
        _ => {}
    }
    (times, supply, records)
}

pub fn call(random: &mut Random) -> Call {
    let logged = logged(random);
    let (times, supply, count, log) = asked(random, logged);
    Call::Conflict(times, supply, count, log)
}
