//! Calls of the two readers and of the writer: a published instance and made
//! ones as they are, texts damaged at each byte in turn, texts at the limits,
//! and small ones drawn from a seed with every fault that the rules name.

mod damaged;
mod draft;
mod drawn;
mod faults;
mod lent;
mod limits;
mod networks;
mod psplib;
mod whole;
mod writes;

use crate::calls::odd;
use crate::lines::Call;
use crate::random::Random;
use crate::reading::Layout::Patterson;

/// The files that the calls start from, in Patterson's layout and PSPLIB's.
pub const PUBLISHED: [&str; 2] = ["j301_1.rcp", "j301_1.sm"];

/// One drawn line in so many has one thing of the line itself changed.
const ODD: usize = 40;

/// One text is drawn in PSPLIB's layout for so many in Patterson's.
const PER_PSPLIB: u64 = 3;

/// One list to be written is drawn for so many Patterson texts.
const PER_WRITE: u64 = 5;

fn odd_at_times(random: &mut Random, call: Call) -> Vec<u8> {
    let line = call.line().into_bytes();
    if random.one_in(ODD) {
        odd::edited(random, line)
    } else {
        line
    }
}

/// Lines that read Patterson texts, `count` of them drawn.
fn patterson(
    published: &[u8],
    seed: u64,
    count: u64,
) -> Result<impl Iterator<Item = Vec<u8>>, String> {
    let needs = whole::needs(Patterson, published);
    let needs = needs.ok_or("the published Patterson text is not a good one")?;
    let calls = whole::published(Patterson, published, &needs)
        .into_iter()
        .chain(whole::made(Patterson, seed))
        .chain(networks::calls(seed))
        .chain(damaged::small(seed))
        .chain(damaged::published(published, &needs, seed));
    let fixed = calls.map(|call: Call| call.line().into_bytes());
    let mut random = Random::new(seed);
    let drawn = (0..count).map(move |_| {
        let call = drawn::call(&mut random);
        odd_at_times(&mut random, call)
    });
    let limits = limits::lines(published, needs.lengths);
    Ok(fixed.chain(limits).chain(drawn))
}

/// Lines drawn for the other calls.
fn drawn_others(seed: u64, count: u64) -> impl Iterator<Item = Vec<u8>> {
    let mut random = Random::new(seed ^ 0x13);
    let texts = (0..count / PER_PSPLIB).map(move |_| {
        let call = psplib::drawn::call(&mut random);
        odd_at_times(&mut random, call)
    });
    let mut random = Random::new(!seed ^ 0x13);
    let lists = (0..count / PER_WRITE).flat_map(move |_| {
        let calls = writes::drawn::calls(&mut random).into_iter();
        let lines = calls.map(|call| odd_at_times(&mut random, call));
        lines.collect::<Vec<_>>()
    });
    texts.chain(lists)
}

/// The lines that read Patterson texts, `count` of them drawn; then those of the
/// other calls, with fewer drawn.
pub fn lines(
    published: [&[u8]; 2],
    seed: u64,
    count: u64,
) -> Result<impl Iterator<Item = Vec<u8>>, String> {
    let [rcp, sm] = published;
    let lines = patterson(rcp, seed, count)?
        .chain(psplib::lines(sm, rcp, seed)?)
        .chain(writes::lines(rcp, seed)?)
        .chain(drawn_others(seed, count));
    Ok(lines)
}
