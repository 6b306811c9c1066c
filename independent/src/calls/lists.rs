//! Good job lists of every size whose windows hold their jobs: crowded and
//! empty ones, few long jobs, times and demands up to their limits.

use crate::calls::crowds;
use crate::calls::shapes::{self, Shape};
use crate::joblist::{Supply, Times, MOST_DEMAND, MOST_TIME};
use crate::random::Random;

/// Longer jobs are not packed into a schedule.
const LONGEST_PACKED: u32 = 100;

/// Moves all windows by one number, sometimes up to the limit of times.
pub fn moved_up(random: &mut Random, times: &mut Times) {
    let room = MOST_TIME - times.lct.iter().max().copied().unwrap_or(0);
    let by = match random.below(6) {
        0 => room,
        1 => random.between(0, room),
        _ => 0,
    };
    times.est.iter_mut().for_each(|time| *time += by);
    times.lct.iter_mut().for_each(|time| *time += by);
}

/// Multiplies all demands and the capacity, sometimes up to their limit.
fn scaled(random: &mut Random, supply: &mut Supply) {
    let most = supply.dem.iter().copied().fold(supply.cap, u32::max).max(1);
    if random.one_in(8) {
        let most_by = MOST_DEMAND / most;
        let by = random.pick(&[3, 10, most_by]).min(most_by);
        supply.dem.iter_mut().for_each(|demand| *demand *= by);
        supply.cap *= by;
    }
}

pub fn drawn(random: &mut Random, shape: &Shape) -> (Times, Supply) {
    let mut times = Times::default();
    let mut supply = Supply {
        cap: shape.cap,
        dem: Vec::new(),
    };
    let fixed = random.one_in(20);
    for _ in 0..shape.jobs {
        let start = random.between(0, shape.start);
        let duration = random.between(0, shape.duration);
        let slack = if fixed || random.one_in(4) {
            0
        } else {
            random.between(0, shape.slack)
        };
        let end = (start + duration + slack).min(MOST_TIME);
        times.push(start, end, duration);
        supply.dem.push(random.between(0, shape.demand));
    }
    (times, supply)
}

/// The first start from `from` on at which the draw stays within the capacity.
fn first_fit(load: &[u32], from: usize, duration: usize, most: u32) -> usize {
    let fits = |&start: &usize| load[start..][..duration].iter().all(|&draw| draw <= most);
    (from..).find(fits).expect("there is room at the end")
}

/// Windows around a schedule that is packed as the capacity allows, so that
/// rules apply and none closes a window.
pub fn packed(random: &mut Random, shape: &Shape) -> (Times, Supply) {
    let (mut times, mut supply) = drawn(random, shape);
    let ticks = shape.start as usize + (shape.jobs + 1) * shape.duration as usize;
    let mut load = vec![0; ticks];
    let loose = random.pick(&[2, 3, 5]);
    for k in 0..shape.jobs {
        let demand = supply.dem[k].min(supply.cap);
        let ticks = times.dur[k] as usize;
        let start = first_fit(&load, times.est[k] as usize, ticks, supply.cap - demand);
        let taken = &mut load[start..][..ticks];
        taken.iter_mut().for_each(|draw| *draw += demand);
        let most = if random.one_in(loose) {
            shape.slack + shape.duration
        } else {
            1
        };
        let start = start as u32;
        supply.dem[k] = demand;
        times.est[k] = start - random.between(0, most).min(start);
        times.lct[k] = start + times.dur[k] + random.between(0, most);
    }
    (times, supply)
}

/// Numbers at their limits; one job may last as long as a window can.
fn at_the_limits(random: &mut Random) -> (Times, Supply) {
    let draws = [0, 1, MOST_DEMAND / 2, MOST_DEMAND - 1, MOST_DEMAND];
    let mut times = Times::default();
    let mut supply = Supply {
        cap: random.pick(&draws),
        dem: Vec::new(),
    };
    for longest in random.pick(&[vec![MOST_TIME], vec![MOST_TIME, 9]]) {
        let start = random.pick(&[0, 0, 1, MOST_TIME - 1, MOST_TIME]);
        let end = random.pick(&[start, MOST_TIME - 1, MOST_TIME]).max(start);
        let duration = random.pick(&[0, 1, end - start, (end - start).saturating_sub(1)]);
        times.push(start, end, duration.min(longest));
        supply.dem.push(random.pick(&draws));
    }
    (times, supply)
}

pub fn good(random: &mut Random) -> (Times, Supply) {
    if random.one_in(300) {
        return at_the_limits(random);
    }
    let shape = shapes::any(random);
    let (mut times, mut supply) = match random.below(12) {
        0..=1 => crowds::any(random).drawn(random),
        2..=7 if shape.duration <= LONGEST_PACKED => packed(random, &shape),
        _ => drawn(random, &shape),
    };
    moved_up(random, &mut times);
    scaled(random, &mut supply);
    (times, supply)
}

/// Lists for the overload check.
pub fn good_for_one(random: &mut Random) -> Times {
    let shape = shapes::for_one(random);
    let (mut times, _) = drawn(random, &shape);
    moved_up(random, &mut times);
    times
}
