//! Calls that show a record and calls of the overload check.

use crate::answers::Answer;
use crate::calls::narrowing::words;
use crate::calls::{faults, lists, short};
use crate::joblist::{Supply, Times};
use crate::lines::Call;
use crate::overload;
use crate::random::Random;
use crate::record::RECORD_WORDS;

/// Words beyond the last whole record: a ragged log is as good as others here.
fn beyond(random: &mut Random) -> usize {
    if random.one_in(3) {
        random.below(RECORD_WORDS)
    } else {
        0
    }
}

/// Also numbers whose product with the record's length would wrap.
pub fn record(random: &mut Random) -> Call {
    let records = random.below(5);
    let length = records * RECORD_WORDS + beyond(random);
    let anywhere = random.long();
    let k = match random.below(4) {
        0 => random.pick(&[1 << 32, 1 << 62, (1 << 62) + 1, 1 << 63, u64::MAX]),
        1 => random.pick(&[records as u64, anywhere]),
        _ => random.below(records.max(1)) as u64,
    };
    Call::Record(k, words(random, length))
}

/// Lists in which more often than not some set is overloaded.
fn overloaded(random: &mut Random) -> Times {
    for _ in 0..6 {
        let times = lists::good_for_one(random);
        if overload::overload(&times) != Answer::None {
            return times;
        }
    }
    lists::good_for_one(random)
}

/// Mostly lists with windows that are too short, often beside an overloaded set
/// of other jobs. A job put behind has no part in the pair of a set that ends
/// before it; a tie may make windows long enough again.
fn with_short(random: &mut Random) -> Times {
    let mut times = match random.below(2) {
        0 => overloaded(random),
        _ => lists::good_for_one(random),
    };
    if random.one_in(5) {
        short::put_behind(random, &mut times);
        return times;
    }
    short::put(random, &mut times);
    if random.one_in(3) {
        short::tie(random, &mut times);
    }
    times
}

pub fn overload(random: &mut Random) -> Call {
    let mut times = match random.below(5) {
        0 => with_short(random),
        _ => lists::good_for_one(random),
    };
    if random.one_in(10) {
        let mut unused = Supply::of_one(times.est.len());
        faults::spoil(random, &mut times, &mut unused);
    }
    Call::Overload(times)
}
