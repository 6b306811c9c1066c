//! Crowds: lists in which many jobs surely run at one time, and some that have
//! to leave it, so that reasons have members to spare.

use crate::joblist::{Supply, Times, MOST_JOBS};
use crate::random::Random;

/// How the demands of the jobs that stay go by their numbers.
#[derive(Clone, Copy)]
pub enum Demands {
    Equal,
    Any,
    FewBig,
    BigFirst,
    BigLast,
}

/// What a crowd is drawn from.
pub struct Crowd {
    pub jobs: usize,
    /// The greatest duration.
    pub duration: u32,
    /// One job in so many has to leave.
    pub leaving: usize,
    pub demands: Demands,
    /// The greatest demand of those that stay.
    pub demand: u32,
    /// Those that leave may draw up to the whole capacity.
    pub wide: bool,
    /// Those that stay draw more than the capacity.
    pub overdrawn: bool,
}

impl Crowd {
    fn demand_of(&self, random: &mut Random, k: usize) -> u32 {
        let big = match self.demands {
            Demands::Equal => true,
            Demands::Any => return random.between(1, self.demand),
            Demands::FewBig => random.one_in(4),
            Demands::BigFirst => k < self.jobs / 4,
            Demands::BigLast => k >= self.jobs - self.jobs / 4,
        };
        if big {
            self.demand
        } else {
            1
        }
    }

    /// The time of the crowd, late enough for windows that begin before it.
    fn time(&self) -> u32 {
        5 * self.duration
    }

    /// A window whose sure part holds the time of the crowd.
    fn stay(&self, random: &mut Random, times: &mut Times) {
        let duration = random.between(1, self.duration);
        let start = random.between(self.time() - duration + 1, self.time());
        let latest = random.between(start, self.time());
        times.push(start, latest + duration, duration);
    }

    /// A window that reaches into the crowd with its first start or its last,
    /// and mostly out of it with the other.
    fn leave(&self, random: &mut Random, times: &mut Times) {
        let duration = random.between(1, self.duration);
        let inside = random.between(self.time() - duration + 1, self.time());
        let (start, latest) = match random.below(16) {
            0 => (inside, random.between(inside, self.time() + 1)),
            1..=8 => (inside, random.between(self.time() + 1, 2 * self.time())),
            _ => (random.between(0, self.time() - duration), inside),
        };
        times.push(start, latest + duration, duration);
    }

    fn cap(&self, random: &mut Random, total: u32) -> u32 {
        if self.overdrawn {
            random.between(total / 4, total.saturating_sub(1))
        } else {
            total + random.between(0, self.demand / 2)
        }
    }

    pub fn drawn(&self, random: &mut Random) -> (Times, Supply) {
        let mut times = Times::default();
        let mut dem = Vec::new();
        let leaves: Vec<bool> = (0..self.jobs)
            .map(|_| random.one_in(self.leaving))
            .collect();
        for (k, &leaves) in leaves.iter().enumerate() {
            if leaves {
                self.leave(random, &mut times);
                dem.push(0);
            } else {
                self.stay(random, &mut times);
                dem.push(self.demand_of(random, k));
            }
        }
        let cap = self.cap(random, dem.iter().sum());
        let most = if self.wide { cap } else { self.demand };
        for k in (0..self.jobs).filter(|&k| leaves[k]) {
            dem[k] = random.between(1, most.max(1));
        }
        (times, Supply { cap, dem })
    }
}

fn jobs(random: &mut Random) -> u32 {
    match random.below(40) {
        0 => random.between(41, MOST_JOBS as u32),
        1..=8 => random.between(12, 40),
        _ => random.between(3, 11),
    }
}

pub fn any(random: &mut Random) -> Crowd {
    let demands = [
        Demands::Equal,
        Demands::Any,
        Demands::Any,
        Demands::FewBig,
        Demands::BigFirst,
        Demands::BigLast,
    ];
    Crowd {
        jobs: jobs(random) as usize,
        duration: random.between(1, 5),
        leaving: random.pick(&[2, 3, 5]),
        demands: random.pick(&demands),
        demand: random.pick(&[1, 2, 3, 5, 9]),
        wide: random.one_in(2),
        overdrawn: random.one_in(5),
    }
}
