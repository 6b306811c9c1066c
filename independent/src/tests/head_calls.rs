//! That the read head's calls meet all that could hide a mistake about it: often
//! among the drawn ones, and at every full size.

use super::calls::{COUNT, SEED};
use super::overload::times_of;
use crate::answers::Answer;
use crate::calls::{drawn, heads};
use crate::head::{by_thresholds, head, head_by, value};
use crate::joblist::{good_jobs, lowest_too_short, Job, Supply, Times, MOST_JOBS, MOST_TIME};
use crate::lines::{read, Call};
use crate::random::Random;
use crate::timetable::{narrow, Side};
use std::collections::BTreeMap;

/// The list, if it is good and no window is too short.
fn sound(call: Call) -> Option<Times> {
    let Call::Head(times) = call else {
        return None;
    };
    let jobs = good_jobs(&times, &Supply::of_one(times.est.len())).ok()?;
    lowest_too_short(&jobs).is_none().then_some(times)
}

/// The list without the jobs that last nothing.
fn lasting(times: &Times) -> Times {
    let kept = (0..times.est.len()).filter(|&k| times.dur[k] >= 1);
    let kept: Vec<_> = kept
        .map(|k| (times.est[k], times.lct[k], times.dur[k]))
        .collect();
    times_of(&kept)
}

/// Some earliest end is so much behind another job's latest start.
fn meets(times: &Times, behind: u32) -> bool {
    let Times { est, lct, dur } = lasting(times);
    let all = 0..est.len();
    let end = |i: usize| est[i] + dur[i];
    let pairs = all.clone().flat_map(|i| all.clone().map(move |j| (i, j)));
    let mut pairs = pairs.filter(|(i, j)| i != j);
    pairs.any(|(i, j)| end(i) == lct[j] - dur[j] + behind)
}

/// The best of those found alone.
fn by_one(found: &[Job], side: Side) -> Option<i64> {
    let each = found.iter().map(std::slice::from_ref);
    let values = each.filter_map(|one| by_thresholds(one, side));
    match side {
        Side::Start => values.max(),
        Side::End => values.min(),
    }
}

/// What the list is good for.
fn uses(times: &Times) -> Vec<&'static str> {
    let run = |way| {
        let mut after = times.clone();
        (head_by(way, &mut after), after)
    };
    let found = run(by_thresholds);
    let mut crowds = times.clone();
    let one_each = Supply::of_one(times.est.len());
    let quiet = times.dur.iter().sum::<u32>() < 10_000
        && narrow(&mut crowds, &one_each, &mut []) == Answer::Settled(0);
    let (moves, closed) = match found.0 {
        Answer::Clash(moves, _) => (moves, true),
        Answer::Settled(moves) => (moves, false),
        _ => panic!("a good list"),
    };
    let idle = times.dur.contains(&0);
    let named = [
        (moves == 0, "no move"),
        (!closed && moves > times.est.len(), "more moves than jobs"),
        (closed && moves > 3, "closed late"),
        (quiet && moves > 0, "time-tabling finds nothing"),
        (meets(times, 0), "just not first"),
        (meets(times, 1), "just first"),
        (run(value) != found, "a part of the set"),
        (run(by_one) != found, "more than one"),
        (idle && moves > 0, "moves beside jobs that last nothing"),
        (times.lct.contains(&MOST_TIME), "at the limit"),
    ];
    let those = named.iter().filter(|(fact, _)| *fact);
    those.map(|&(_, name)| name).collect()
}

/// The least number of each use among 900 drawn calls of the read head.
const OFTEN: [(&str, usize); 10] = [
    ("no move", 80),
    ("more moves than jobs", 40),
    ("closed late", 20),
    ("time-tabling finds nothing", 15),
    ("just not first", 250),
    ("just first", 250),
    ("a part of the set", 150),
    ("more than one", 150),
    ("moves beside jobs that last nothing", 80),
    ("at the limit", 15),
];

#[test]
fn every_use_comes_up_often() {
    let mut counts: BTreeMap<&str, usize> = BTreeMap::new();
    let calls = drawn(SEED, COUNT).filter_map(|line| read(&line));
    for found in calls.filter_map(sound).flat_map(|times| uses(&times)) {
        *counts.entry(found).or_default() += 1;
    }
    for (wanted, least) in OFTEN {
        let count = counts.get(wanted).copied().unwrap_or(0);
        assert!(count >= least, "{wanted} {count}");
    }
}

/// As many moves as a chain of links has in a full list, settled and closed: there the
/// fixed job of the last link would have to wait for both of its neighbours.
#[test]
fn full_lists_are_moved_throughout() {
    let calls = heads::calls(&mut Random::new(1)).into_iter();
    let full = calls
        .filter_map(sound)
        .filter(|times| times.est.len() == MOST_JOBS);
    let answers: Vec<Answer> = full.map(|mut times| head(&mut times)).collect();
    let moves = MOST_JOBS - 1;
    assert!(answers.contains(&Answer::Settled(moves)));
    assert!(answers.contains(&Answer::Clash(moves, MOST_JOBS - 2)));
}
