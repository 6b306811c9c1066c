//! That calls from a seed have ragged logs often enough, not too often, of all
//! lengths, and together with all that could hide a mistake about them.

use super::calls::{kind, COUNT, SEED};
use crate::calls::drawn;
use crate::lines::{read, Call};
use crate::record::{is_ragged, room, RECORD_WORDS};
use std::collections::BTreeMap;

/// The call with the whole records of its log alone.
fn with_whole(call: &Call) -> Call {
    let mut call = call.clone();
    if let Call::Narrow(_, _, log) | Call::Check(_, _, _, log) | Call::Conflict(_, _, _, log) =
        &mut call
    {
        log.truncate(room(log) * RECORD_WORDS);
    }
    call
}

fn log_of(call: &Call) -> Option<&[u32]> {
    match call {
        Call::Narrow(_, _, log) | Call::Check(_, _, _, log) | Call::Conflict(_, _, _, log) => {
            Some(log)
        }
        _ => None,
    }
}

/// The kinds of lengths that this one is of.
fn lengths(length: usize) -> Vec<&'static str> {
    let named = [
        (length < RECORD_WORDS, "below a record"),
        (length % RECORD_WORDS == 1, "a word more"),
        (length % RECORD_WORDS == RECORD_WORDS / 2, "half a record"),
        (length % RECORD_WORDS == RECORD_WORDS - 1, "a word less"),
    ];
    let those = named.iter().filter(|(fact, _)| *fact);
    those.map(|&(_, name)| name).collect()
}

fn claim(count: u64, log: &[u32]) -> &'static str {
    let room = room(log) as u64;
    match count {
        0 => "claims none",
        _ if count == room => "claims all",
        _ if count > room => "claims more",
        _ => "claims some",
    }
}

/// What a line with a ragged log is good for: its length, what is claimed, and
/// what would be answered if the log were whole; each after the word of the call.
fn uses(call: &Call) -> Vec<String> {
    let Some(log) = log_of(call).filter(|log| is_ragged(log)) else {
        return Vec::new();
    };
    let (word, claims) = match call {
        Call::Check(_, _, count, _) => ("check", vec![claim(*count, log)]),
        Call::Conflict(_, _, count, _) => ("conflict", vec![claim(*count, log)]),
        _ => ("narrow", Vec::new()),
    };
    let found = [lengths(log.len()), claims].concat();
    let found = found.iter().map(|found| format!("{word} {found}"));
    let whole = kind(with_whole(call).line().as_bytes());
    found.chain([whole]).collect()
}

/// The least number of each use.
const OFTEN: [(&str, usize); 45] = [
    ("narrow below a record", 40),
    ("narrow a word more", 30),
    ("narrow half a record", 20),
    ("narrow a word less", 25),
    ("narrow refused 1", 2),
    ("narrow refused 2", 2),
    ("narrow refused 3", 3),
    ("narrow refused 5", 40),
    ("narrow clash", 12),
    ("narrow clash 0", 12),
    ("narrow settled", 14),
    ("narrow settled 0", 14),
    ("check below a record", 25),
    ("check a word more", 30),
    ("check half a record", 20),
    ("check a word less", 25),
    ("check claims none", 25),
    ("check claims some", 15),
    ("check claims all", 30),
    ("check claims more", 30),
    ("check refused 1", 4),
    ("check refused 2", 1),
    ("check refused 3", 4),
    ("check refused 6", 25),
    ("check clash", 4),
    ("check clash 0", 3),
    ("check holds", 10),
    ("check holds 0", 20),
    ("check rejected 20", 4),
    ("check rejected 21", 7),
    ("check rejected 22", 5),
    ("check rejected 23", 3),
    ("check rejected 24", 1),
    ("check rejected 25", 2),
    ("check rejected 26", 2),
    ("check rejected 27", 2),
    ("conflict below a record", 10),
    ("conflict a word more", 10),
    ("conflict a word less", 10),
    ("conflict claims none", 10),
    ("conflict claims all", 15),
    ("conflict claims more", 10),
    ("conflict marked", 10),
    ("conflict refused 6", 10),
    ("conflict refused 8", 10),
];

#[test]
fn every_use_comes_up_often() {
    let mut counts: BTreeMap<String, usize> = BTreeMap::new();
    let calls = drawn(SEED, COUNT).filter_map(|line| read(&line));
    for found in calls.flat_map(|call| uses(&call)) {
        *counts.entry(found).or_default() += 1;
    }
    for (wanted, least) in OFTEN {
        let count = counts.get(wanted).copied().unwrap_or(0);
        assert!(count >= least, "{wanted} {count}");
    }
}

#[test]
fn about_one_log_in_ten_is_ragged() {
    let calls = drawn(SEED, COUNT).filter_map(|line| read(&line));
    let logs: Vec<bool> = calls
        .filter_map(|call| log_of(&call).map(is_ragged))
        .collect();
    let ragged = logs.iter().filter(|&&ragged| ragged).count();
    assert!(logs.len() < 12 * ragged && 8 * ragged < logs.len());
}

/// A word that was cleared is seen.
#[test]
fn no_word_of_a_ragged_log_to_narrow_is_0() {
    for call in drawn(SEED, COUNT).filter_map(|line| read(&line)) {
        if let Call::Narrow(_, _, log) = call {
            assert!(!is_ragged(&log) || !log.contains(&0));
        }
    }
}
