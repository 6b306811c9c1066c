//! Faults put into lists, for refusals 1 to 3 and for the order in which they
//! are tested.

use crate::joblist::{Supply, Times, MOST_DEMAND, MOST_JOBS, MOST_TIME};
use crate::random::Random;

pub fn lists<'a>(times: &'a mut Times, supply: &'a mut Supply) -> [&'a mut Vec<u32>; 4] {
    [
        &mut times.est,
        &mut times.lct,
        &mut times.dur,
        &mut supply.dem,
    ]
}

fn uneven(random: &mut Random, times: &mut Times, supply: &mut Supply) {
    let list = &mut lists(times, supply)[random.below(4)];
    match random.below(3) {
        0 if !list.is_empty() => list.truncate(random.below(list.len())),
        1 => list.extend([0; 3]),
        _ => list.push(random.between(0, 9)),
    }
}

fn too_many(random: &mut Random, times: &mut Times, supply: &mut Supply) {
    let more = random.pick(&[1, 1, 2, 40]);
    for list in lists(times, supply) {
        list.resize(MOST_JOBS + more, 0);
    }
}

fn above(random: &mut Random, limit: u32) -> u32 {
    match random.below(4) {
        0 => u32::MAX,
        1 => random.between(limit + 1, u32::MAX),
        _ => limit + 1,
    }
}

fn too_great(random: &mut Random, times: &mut Times, supply: &mut Supply) {
    let place = random.below(5);
    if place == 4 || times.est.is_empty() {
        supply.cap = above(random, MOST_DEMAND);
        return;
    }
    let limit = if place == 3 { MOST_DEMAND } else { MOST_TIME };
    let number = above(random, limit);
    let list = &mut lists(times, supply)[place];
    if !list.is_empty() {
        let k = random.below(list.len());
        list[k] = number;
    }
}

fn one(random: &mut Random, times: &mut Times, supply: &mut Supply) {
    match random.below(14) {
        0..=4 => uneven(random, times, supply),
        5..=6 => too_many(random, times, supply),
        _ => too_great(random, times, supply),
    }
}

/// Puts one fault into the lists, sometimes several.
pub fn spoil(random: &mut Random, times: &mut Times, supply: &mut Supply) {
    one(random, times, supply);
    while random.one_in(3) {
        one(random, times, supply);
    }
}
