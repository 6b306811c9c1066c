//! Calls for a PSPLIB text with other numbers: each of its numbers in turn, and
//! each two of them, so that the first fault is seen to decide.

use crate::lines::Call;
use crate::random::Random;
use crate::reading::Layout::Psplib;
use crate::texts::psplib::damaged::{near, SMALL};
use crate::texts::whole::needs;
use std::ops::Range;

const OTHERS: [&str; 20] = [
    "0",
    "1",
    "2",
    "3",
    "4",
    "007",
    "8",
    "9",
    "256",
    "257",
    "10000",
    "10001",
    "1000000",
    "1000001",
    "4294967297",
    "18446744073709551618",
    "300x",
    "+1",
    "-",
    "",
];

/// One that is no number, and one that is above every limit.
const FAULTS: [&str; 2] = ["1x", "1000001"];

/// Where the digits of each number stand.
fn places(text: &str) -> Vec<Range<usize>> {
    let mut places: Vec<Range<usize>> = Vec::new();
    for (place, _) in text.match_indices(|byte: char| byte.is_ascii_digit()) {
        match places.last_mut() {
            Some(last) if last.end == place => last.end += 1,
            _ => places.push(place..place + 1),
        }
    }
    places
}

fn texts(random: &mut Random, text: &str) -> Vec<String> {
    let places = places(text);
    let mut texts = Vec::new();
    for (which, place) in places.iter().enumerate() {
        for other in OTHERS {
            let mut changed = text.to_string();
            changed.replace_range(place.clone(), other);
            texts.push(changed);
        }
        for behind in &places[which + 1..] {
            let first = random.below(2);
            let mut changed = text.to_string();
            changed.replace_range(behind.clone(), FAULTS[1 - first]);
            changed.replace_range(place.clone(), FAULTS[first]);
            texts.push(changed);
        }
    }
    texts
}

/// The text has no digits but those of its numbers.
pub fn calls(seed: u64) -> Vec<Call> {
    let text = SMALL[1];
    let whole = needs(Psplib, text.as_bytes()).expect("the text is a good one");
    let mut random = Random::new(seed);
    let texts = texts(&mut random, text);
    let calls = texts.iter();
    calls
        .map(|text| near(&mut random, &whole, text.as_bytes()))
        .collect()
}
