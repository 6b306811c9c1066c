//! Odd lines: most of them cannot be read, the others are as long as a line may be.

use crate::joblist::{Supply, Times};
use crate::lines::{Call, LONGEST_JOB_LIST, LONGEST_LOG};
use crate::random::Random;
use crate::record::RECORD_WORDS;

fn with_other_number(
    random: &mut Random,
    line: &[u8],
    other: &dyn Fn(&[u8]) -> Vec<u8>,
) -> Vec<u8> {
    let mut words: Vec<Vec<u8>> = line.split(|&b| b == b' ').map(<[u8]>::to_vec).collect();
    let place = 1 + random.below(words.len() - 1);
    words[place] = other(&words[place]);
    words.join(&b' ')
}

/// A number too large, one that is none, or the same with leading zeros.
fn with_odd_number(random: &mut Random, line: &[u8]) -> Vec<u8> {
    let odd: [&[u8]; 10] = [
        b"4294967295",
        b"4294967296",
        b"18446744073709551615",
        b"18446744073709551616",
        b"340282366920938463463374607431768211456",
        b"1000000000000000000000000000000000000000000000",
        b"-1",
        b"+1",
        b"1.0",
        b"0x1",
    ];
    if random.one_in(4) {
        let zeros = vec![b'0'; random.below(50)];
        return with_other_number(random, line, &|word| [&zeros, word].concat());
    }
    let number = random.pick(&odd);
    with_other_number(random, line, &|_| number.to_vec())
}

fn with_odd_byte(random: &mut Random, mut line: Vec<u8>) -> Vec<u8> {
    let byte = random.pick(&[b' ', b' ', b' ', b'\t', b'\r', 0, 12, b'x', 0x80, 0xff]);
    let within = random.below(line.len() + 1);
    let place = random.pick(&[0, line.len(), within]);
    line.insert(place, byte);
    line
}

fn with_other_word(random: &mut Random, line: &[u8]) -> Vec<u8> {
    let words: [&[u8]; 12] = [
        b"",
        b"Narrow",
        b"narro",
        b"narrows",
        b"show",
        b"7",
        b"overload",
        b"record",
        b"conflict",
        b"conflicts",
        b"head",
        b"heads",
    ];
    let rest = line.iter().position(|&b| b == b' ').unwrap_or(line.len());
    [random.pick(&words), &line[rest..]].concat()
}

/// The line with one thing changed, of which most make it unreadable.
pub fn edited(random: &mut Random, mut line: Vec<u8>) -> Vec<u8> {
    match random.below(8) {
        0..=1 => with_odd_byte(random, line),
        2..=3 => with_odd_number(random, &line),
        4 => with_other_word(random, &line),
        5 => [
            line.as_slice(),
            random.pick(&[" 0", " ", " 12 0"]).as_bytes(),
        ]
        .concat(),
        6 => {
            let end = line.iter().rposition(|&b| b == b' ').unwrap_or(0);
            line.truncate(end);
            line
        }
        _ => {
            line.truncate(random.below(line.len() + 1));
            line
        }
    }
}

fn idle(jobs: usize) -> (Times, Supply) {
    let times = Times {
        est: vec![0; jobs],
        lct: vec![1; jobs],
        dur: vec![0; jobs],
    };
    (times, Supply::of_one(jobs))
}

/// Lists as long as a line may have them, and longer by one; a whole log is a
/// little shorter.
pub fn at_a_limit_of_the_line(random: &mut Random) -> Vec<u8> {
    let more = random.below(2);
    let (mut times, mut supply) = idle(LONGEST_JOB_LIST);
    let (few, one_each) = idle(2);
    let call = match random.below(12) {
        one_by_one @ 0..=2 => {
            times.lct.resize(LONGEST_JOB_LIST + more, 0);
            [Call::Overload, Call::Overload, Call::Head][one_by_one](times)
        }
        3..=4 => {
            supply.dem.resize(LONGEST_JOB_LIST + more, 0);
            Call::Check(times, supply, 0, vec![1; RECORD_WORDS])
        }
        5 => {
            supply.dem.resize(LONGEST_JOB_LIST + more, 0);
            Call::Conflict(times, supply, 0, vec![1; RECORD_WORDS])
        }
        6..=7 => Call::Narrow(times, supply, vec![1; RECORD_WORDS + more]),
        8..=9 => {
            supply.dem.resize(LONGEST_JOB_LIST + more, 0);
            Call::Narrow(few, supply, vec![1; RECORD_WORDS])
        }
        10 => {
            let whole = LONGEST_LOG - LONGEST_LOG % RECORD_WORDS;
            let length = random.pick(&[whole, LONGEST_LOG + more]);
            let log = vec![7; length];
            random.pick(&[
                Call::Narrow(few.clone(), one_each.clone(), log.clone()),
                Call::Conflict(few, one_each, 1, log),
            ])
        }
        _ => {
            let last = (LONGEST_LOG / RECORD_WORDS) as u64 - 1;
            Call::Record(last + more as u64, vec![7; LONGEST_LOG + random.below(2)])
        }
    };
    call.line().into_bytes()
}
