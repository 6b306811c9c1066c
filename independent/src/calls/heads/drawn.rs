//! Calls of the read head drawn from a seed: windows around jobs that follow one
//! another, with room and without, windows drawn freely, and numbers put where one
//! more or less decides.

use super::{listed, Triple};
use crate::answers::Answer;
use crate::calls::{faults, lists, shapes, short};
use crate::head::head;
use crate::joblist::{Supply, Times, MOST_JOBS, MOST_TIME};
use crate::lines::Call;
use crate::random::Random;

fn jobs(random: &mut Random) -> u32 {
    match random.below(200) {
        0 => random.between(41, MOST_JOBS as u32),
        1..=24 => random.between(11, 40),
        _ => random.between(0, 10),
    }
}

/// Windows around jobs that follow one another, so that there is a schedule; they
/// are listed in any order, along the clock or against it.
pub fn around(random: &mut Random, jobs: u32) -> Times {
    let longest = random.pick(&[1, 2, 3, 6, 9]);
    let gap = random.pick(&[0, 0, 1, 3]);
    let slack = longest * random.pick(&[0, 1, 1, 2, 3, 5]);
    let lasts_nothing = random.pick(&[3, 20, 400]);
    let mut all: Vec<Triple> = Vec::new();
    let mut time = 0;
    for _ in 0..jobs {
        let start = time + random.between(0, gap);
        let duration = match random.one_in(lasts_nothing) {
            true => 0,
            false => random.between(1, longest),
        };
        time = start + duration;
        let early = random.between(0, slack).min(start);
        all.push((start - early, time + random.between(0, slack), duration));
    }
    match random.below(4) {
        0 => {}
        1 => all.reverse(),
        _ => {
            let order = random.order(all.len());
            all = order.into_iter().map(|k| all[k]).collect();
        }
    }
    listed(&all)
}

/// Makes a job longer, and its window where it has to be.
fn lengthen(random: &mut Random, times: &mut Times) {
    let k = random.below(times.est.len());
    times.dur[k] += random.between(1, 3);
    times.lct[k] = times.lct[k].max(times.est[k] + times.dur[k]);
}

/// Puts the earliest end of a job at the latest start of another one or a tick
/// behind it.
fn meet(random: &mut Random, times: &mut Times) {
    let (i, j) = (random.below(times.est.len()), random.below(times.est.len()));
    let meeting = times.lct[j] - times.dur[j] + random.between(0, 1);
    times.est[i] = meeting.saturating_sub(times.dur[i]);
    times.lct[i] = times.lct[i].max(times.est[i] + times.dur[i]);
}

/// Multiplies all times, often up to their limit.
fn stretch(random: &mut Random, times: &mut Times) {
    let most = MOST_TIME / times.lct.iter().max().copied().unwrap_or(0).max(1);
    let by = random.pick(&[2, 1_000, most, most]).clamp(1, most.max(1));
    for list in [&mut times.est, &mut times.lct, &mut times.dur] {
        list.iter_mut().for_each(|number| *number *= by);
    }
}

pub fn any(random: &mut Random) -> Times {
    let mut times = match random.below(6) {
        0 => {
            let shape = shapes::for_one(random);
            lists::drawn(random, &shape).0
        }
        _ => {
            let jobs = jobs(random);
            around(random, jobs)
        }
    };
    if times.est.is_empty() {
        return times;
    }
    for _ in 0..random.pick(&[0, 0, 1, 3]) {
        meet(random, &mut times);
    }
    if random.one_in(5) {
        lengthen(random, &mut times);
    }
    match random.below(12) {
        0 => stretch(random, &mut times),
        1 => lists::moved_up(random, &mut times),
        _ => {}
    }
    times
}

/// The number of moves of the run on these lists.
fn moves(times: &Times) -> usize {
    match head(&mut times.clone()) {
        Answer::Settled(count) | Answer::Clash(count, _) => count,
        _ => 0,
    }
}

/// The list with the most moves of those drawn, mostly several.
fn busy(random: &mut Random) -> Times {
    let count = random.pick(&[1, 2, 4, 6]);
    let drawn = (0..count).map(|_| any(random));
    drawn.max_by_key(moves).unwrap_or_default()
}

pub fn call(random: &mut Random) -> Call {
    let mut times = busy(random);
    if random.one_in(8) {
        short::put(random, &mut times);
    }
    if random.one_in(10) {
        let mut unused = Supply::of_one(times.est.len());
        faults::spoil(random, &mut times, &mut unused);
    }
    Call::Head(times)
}
