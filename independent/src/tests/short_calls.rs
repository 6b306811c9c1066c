//! That calls from a seed meet windows that are too short often, and together
//! with all that could hide a mistake about them.

use super::calls::{COUNT, SEED};
use crate::answers::Answer;
use crate::calls::drawn;
use crate::joblist::{Supply, Times};
use crate::lines::{answer, read, Call};
use crate::overload::overload;
use crate::record::room;
use crate::timetable::narrow;
use std::collections::BTreeMap;

/// How much longer each job is than its window, as far as all have numbers.
fn excess(times: &Times) -> Vec<i64> {
    let long = |k: usize| i64::from(times.est[k]) + i64::from(times.dur[k]);
    let jobs = times.est.len().min(times.lct.len()).min(times.dur.len());
    let excess = |k: usize| long(k) - i64::from(times.lct[k]);
    (0..jobs).map(excess).collect()
}

fn too_short(times: &Times) -> Vec<usize> {
    let excess = excess(times);
    (0..excess.len()).filter(|&k| excess[k] > 0).collect()
}

/// The lists of the jobs whose windows are not too short.
fn others(times: &Times, supply: &Supply) -> (Times, Supply) {
    let (mut rest, mut dem) = (Times::default(), Vec::new());
    for k in (0..times.est.len()).filter(|k| !too_short(times).contains(k)) {
        rest.push(times.est[k], times.lct[k], times.dur[k]);
        dem.push(supply.dem[k]);
    }
    (rest, Supply { dem, ..*supply })
}

/// The words whose fact is true.
fn those(words: &[(bool, &'static str)]) -> Vec<&'static str> {
    let those = words.iter().filter(|(fact, _)| *fact);
    those.map(|&(_, word)| word).collect()
}

fn of_times(times: &Times) -> Vec<&'static str> {
    let short = too_short(times);
    let last = times.est.len() - 1;
    those(&[
        (short.len() == 1, "one"),
        (short.len() > 1, "several"),
        (short == [last] && last > 0, "the last"),
        (times.dur[short[0]] == 0, "lasts nothing"),
        (excess(times).contains(&0), "just fits"),
    ])
}

fn of_narrow(times: &Times, supply: &Supply, log: &[u32]) -> Vec<&'static str> {
    let (mut rest, rest_supply) = others(times, supply);
    let without = narrow(&mut rest, &rest_supply, &mut log.to_vec());
    those(&[
        (log.is_empty(), "no log"),
        (room(log) > 0 && !log.contains(&0), "full log"),
        (without == Answer::Refused(5), "else 5"),
        (matches!(without, Answer::Clash(..)), "else clash"),
    ])
}

fn of_overload(times: &Times) -> Vec<&'static str> {
    let Answer::Overload(a, b) = overload(times) else {
        panic!("a job that is too long is an overloaded set");
    };
    let (rest, _) = others(times, &Supply::of_one(times.est.len()));
    let without = overload(&rest);
    let tie = times.lct.iter().filter(|&&lct| i64::from(lct) == b);
    those(&[
        (a > b, "a above b"),
        (a == b, "a is b"),
        (tie.count() > 1, "tie of b"),
        (without != Answer::None, "greater set"),
        (without == Answer::Overload(a, b), "greater set first"),
    ])
}

/// What a good list with a window that is too short is asked for.
fn of_call(call: &Call) -> Vec<&'static str> {
    match call {
        Call::Narrow(times, supply, log) => {
            [of_times(times), of_narrow(times, supply, log)].concat()
        }
        Call::Check(times, ..) => of_times(times),
        Call::Overload(times) => [of_times(times), of_overload(times)].concat(),
        _ => Vec::new(),
    }
}

fn times_of(call: &Call) -> Option<&Times> {
    match call {
        Call::Narrow(times, ..) | Call::Check(times, ..) | Call::Overload(times) => Some(times),
        _ => None,
    }
}

/// What a line is good for, each word after that of the call; nothing where no
/// window is too short.
fn uses(line: &[u8]) -> Vec<String> {
    let Some(call) = read(line) else {
        return Vec::new();
    };
    if times_of(&call).is_none_or(|times| too_short(times).is_empty()) {
        return Vec::new();
    }
    let answer = answer(line);
    let words: Vec<&str> = answer.split(' ').take(3).collect();
    let said = match words[..] {
        ["rejected", ..] => words.join(" "),
        ["overload", ..] => "overload".to_string(),
        _ => words[..2].join(" "),
    };
    let more = match words[0] {
        "refused" => Vec::new(),
        _ => of_call(&call),
    };
    let call = call.line();
    let call = call.split(' ').next().unwrap_or_default();
    let all = [vec![said.as_str()], more].concat();
    all.iter().map(|word| format!("{call} {word}")).collect()
}

/// The least number of each use.
const OFTEN: [(&str, usize); 38] = [
    ("narrow clash 0", 150),
    ("narrow refused 1", 15),
    ("narrow refused 2", 3),
    ("narrow refused 3", 25),
    ("narrow refused 7", 10),
    ("narrow one", 70),
    ("narrow several", 50),
    ("narrow the last", 30),
    ("narrow lasts nothing", 50),
    ("narrow just fits", 90),
    ("narrow no log", 40),
    ("narrow full log", 60),
    ("narrow else 5", 35),
    ("narrow else clash", 12),
    ("check clash 0", 45),
    ("check rejected 0 20", 45),
    ("check refused 1", 8),
    ("check refused 2", 2),
    ("check refused 3", 20),
    ("check refused 6", 18),
    ("check refused 7", 10),
    ("check one", 50),
    ("check several", 40),
    ("check the last", 25),
    ("check lasts nothing", 40),
    ("check just fits", 60),
    ("overload refused 1", 3),
    ("overload refused 2", 1),
    ("overload refused 3", 10),
    ("overload one", 40),
    ("overload several", 35),
    ("overload lasts nothing", 30),
    ("overload just fits", 60),
    ("overload a above b", 50),
    ("overload a is b", 10),
    ("overload tie of b", 40),
    ("overload greater set", 30),
    ("overload greater set first", 12),
];

#[test]
fn every_use_comes_up_often() {
    let mut counts: BTreeMap<String, usize> = BTreeMap::new();
    for found in drawn(SEED, COUNT).flat_map(|line| uses(&line)) {
        *counts.entry(found).or_default() += 1;
    }
    for (wanted, least) in OFTEN {
        let count = counts.get(wanted).copied().unwrap_or(0);
        assert!(count >= least, "{wanted} {count}");
    }
}
