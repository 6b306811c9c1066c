//! Ragged logs: their lengths, and how often the logs drawn are ragged.

use crate::random::Random;
use crate::record::RECORD_WORDS;

/// So rare that refusing them would hide little of what whole logs show.
pub fn is_due(random: &mut Random) -> bool {
    random.one_in(10)
}

/// A ragged length near that of a whole log, or below one record.
pub fn length(random: &mut Random, whole: usize) -> usize {
    let any = 1 + random.below(RECORD_WORDS - 1);
    let part = random.pick(&[1, 1, RECORD_WORDS / 2, RECORD_WORDS - 1, any, any]);
    match random.below(6) {
        0 => part,
        1..=2 if whole > 0 => whole - part,
        _ => whole + part,
    }
}
