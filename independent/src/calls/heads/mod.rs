//! Calls of the read head: small ones about every threshold, ones of every full
//! size, and ones drawn from a seed.

pub mod drawn;
mod full;
mod near;

use crate::calls::sizes::SIZES;
use crate::joblist::Times;
use crate::lines::Call;
use crate::random::Random;

/// A job as 02 writes it: e, l, p.
type Triple = (u32, u32, u32);

fn listed(jobs: &[Triple]) -> Times {
    let mut times = Times::default();
    jobs.iter().for_each(|&(e, l, p)| times.push(e, l, p));
    times
}

/// The same jobs with the clock turned: each side becomes the other.
fn turned(jobs: &[Triple]) -> Vec<Triple> {
    let end = jobs.iter().map(|&(_, l, _)| l).max().unwrap_or(0);
    jobs.iter()
        .map(|&(e, l, p)| (end - l, end - e, p))
        .collect()
}

fn backwards(jobs: &[Triple]) -> Vec<Triple> {
    jobs.iter().rev().copied().collect()
}

/// The small calls and those of every full size.
pub fn calls(random: &mut Random) -> Vec<Call> {
    let mut all = near::lists();
    for jobs in SIZES {
        all.extend(full::lists(random, jobs));
    }
    all.into_iter().map(Call::Head).collect()
}
