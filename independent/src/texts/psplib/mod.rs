//! Calls of the PSPLIB reader: the published text and made ones as they are,
//! small texts damaged at each byte and each line, headings and numbers of every
//! kind, texts at the limits, and small texts drawn from a seed.

mod damaged;
pub mod drawn;
mod forms;
mod headings;
mod limits;
mod numbers;
mod sections;

use crate::lines::Call;
use crate::make;
use crate::random::Random;
use crate::reading::Layout::{Patterson, Psplib};
use crate::texts::lent::call;
use crate::texts::networks;
use crate::texts::whole::{about_the_chain, made, needs, published, Needs};

/// Each layout's texts given to the other's reader.
fn crossed(text: &[u8], other: &[u8], needs: &Needs) -> Vec<Call> {
    let made = |ending: &str| make::text(1, 30, ending).expect("the size is one of the library's");
    let texts = [
        (Patterson, text.to_vec()),
        (Psplib, other.to_vec()),
        (Patterson, made("sm").into_bytes()),
        (Psplib, made("rcp").into_bytes()),
    ];
    let calls = texts.iter();
    calls
        .map(|(layout, text)| call(*layout, text, 0, 158, needs.lengths))
        .collect()
}

/// Networks of up to 256 jobs, thin and dense, some with a cycle.
fn large(seed: u64) -> Vec<Call> {
    let mut random = Random::new(seed);
    let mut calls = Vec::new();
    for (jobs, thin) in [(33, 1), (65, 3), (256, 60), (256, 256)] {
        for cycle in [false, true] {
            let project = networks::any(&mut random, jobs, thin, cycle);
            calls.extend(about_the_chain(Psplib, &sections::plain(&project)));
        }
    }
    let fullest = sections::plain(&networks::fullest(&mut random));
    calls.extend(about_the_chain(Psplib, &fullest).pop());
    calls
}

/// Lines for a published text in PSPLIB's layout and in the other one.
pub fn lines(
    text: &[u8],
    other: &[u8],
    seed: u64,
) -> Result<impl Iterator<Item = Vec<u8>>, String> {
    let needs = needs(Psplib, text).ok_or("the published PSPLIB text is not a good one")?;
    let calls = published(Psplib, text, &needs)
        .into_iter()
        .chain(crossed(text, other, &needs))
        .chain(made(Psplib, seed))
        .chain(large(seed))
        .chain(damaged::small(seed))
        .chain(damaged::published(text, &needs, seed))
        .chain(headings::calls())
        .chain(numbers::calls(seed));
    let lines = calls.map(|call: Call| call.line().into_bytes());
    Ok(lines.chain(limits::lines(text, needs.lengths)))
}
