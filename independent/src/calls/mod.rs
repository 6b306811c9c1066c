//! Calls made from a seed, so that two programs can be asked the same: every
//! answer, refusal and code comes up, and so do lines that cannot be read.

mod checking;
mod conflicts;
pub mod crowds;
mod faults;
pub mod foreign;
pub mod heads;
mod last;
mod lists;
mod marking;
mod naming;
mod narrowing;
pub mod odd;
mod others;
mod ragged;
mod shapes;
mod short;
pub mod sizes;

use crate::lines::Call;
use crate::random::Random;

/// A call of any kind but the read head's that is written as it should be.
fn well_written(random: &mut Random) -> Call {
    match random.below(120) {
        0..=36 => narrowing::call(random),
        37..=77 => checking::call(random),
        78..=94 => others::overload(random),
        95..=99 => others::record(random),
        _ => conflicts::call(random),
    }
}

/// The bytes of one line for a call made in this way, without its line feed.
fn line(random: &mut Random, well_written: fn(&mut Random) -> Call) -> Vec<u8> {
    match random.below(1_000) {
        0..=1 => odd::at_a_limit_of_the_line(random),
        2..=49 => {
            let line = well_written(random).line();
            odd::edited(random, line.into_bytes())
        }
        _ => well_written(random).line().into_bytes(),
    }
}

/// The random numbers of the read head's calls, which leave the others as they are.
fn for_heads(seed: u64) -> Random {
    Random::new(!seed)
}

/// Calls of any size, one in nine of them the read head's.
pub fn drawn(seed: u64, count: u64) -> impl Iterator<Item = Vec<u8>> {
    let mut random = Random::new(seed);
    let mut for_heads = for_heads(seed);
    (1..=count).map(move |k| match k % 9 {
        0 => line(&mut for_heads, heads::drawn::call),
        _ => line(&mut random, well_written),
    })
}

/// The calls of every full size, and then so many of any size.
pub fn lines(seed: u64, count: u64) -> impl Iterator<Item = Vec<u8>> {
    let mut sizes = sizes::calls(&mut Random::new(seed));
    sizes.extend(heads::calls(&mut for_heads(seed)));
    let sizes = sizes.into_iter().map(|call| call.line().into_bytes());
    sizes.chain(drawn(seed, count))
}
