//! Calls for texts damaged at each byte in turn: the byte removed, doubled,
//! changed to a blank, to a letter, to a digit.

use crate::lines::Call;
use crate::random::Random;
use crate::reading::Layout::Patterson;
use crate::texts::lent::call;
use crate::texts::whole::{needs, Needs};

pub type Damage = fn(&mut Random, &mut Vec<u8>, usize);

const DAMAGES: [Damage; 5] = [
    |_, text, place| {
        text.remove(place);
    },
    |_, text, place| text.insert(place, text[place]),
    |random, text, place| text[place] = random.pick(b" \t\r\n"),
    |random, text, place| text[place] = random.pick(b"xeEoOlaZ"),
    |random, text, place| text[place] = random.pick(b"0123456789"),
];

/// Small texts, each with something that damage turns into a refusal.
const SMALL: [&str; 14] = [
    "1 1 5 3 2 0\n",
    "3 1\n4\n2 1 1 2\n3 2 1 3\n1 1 0\n",
    "4 2\n5 6\n3 1 2 2 2 3\n4 0 1 1 4\n1 2 2 1 4\n2 1 0 0\n",
    "3 1\n1\n0 0 1 2\n0 0 1 3\n0 0 0\n",
    "3 1\n1\n1 1 0\n1 1 1 1\n1 1 2 2 1\n",
    "2 1\n10000\n999999 10000 1 2\n1 0 0\n",
    "0 1 7\n",
    "0 0",
    "1 0\n3 0\n",
    "2 1\n3\n1 1 2 2 2\n1 1 0\n",
    "1 8\n1 2 3 4 5 6 7 8\n1 8 7 6 5 4 3 2 1 0\n",
    "2 1\n3\n1 1 1 2\n1 1 1 1\n",
    "1 1\n3\n0 0 1 1\n",
    "11 1 2 1 1 0 1 1 0 1 1 0 1 1 0 1 1 0 1 1 0 1 1 0 1 1 0 1 1 1 11 1 1 0 1 1 0",
];

/// Each damage at each place of a text.
pub fn damaged(
    mut random: Random,
    damages: &'static [Damage],
    text: Vec<u8>,
) -> impl Iterator<Item = Vec<u8>> {
    let places = 0..text.len();
    let all = damages
        .iter()
        .flat_map(move |damage| places.clone().map(move |place| (damage, place)));
    all.map(move |(damage, place)| {
        let mut text = text.clone();
        damage(&mut random, &mut text, place);
        text
    })
}

/// The published text, with room for more pairs than it has.
pub fn published(text: &[u8], needs: &Needs, seed: u64) -> impl Iterator<Item = Call> {
    let lengths = needs.lengths;
    let chain = needs.chain.unwrap_or(0);
    let last = needs.resources.saturating_sub(1);
    let mut random = Random::new(seed);
    let texts = damaged(Random::new(!seed), &DAMAGES, text.to_vec());
    texts.map(move |text| {
        let horizon = random.pick(&[chain, chain, chain + 7, 158, 1_000_000]);
        let mut lengths = lengths;
        lengths[4] += random.below(4);
        lengths[5] += random.below(4);
        call(Patterson, &text, random.between(0, last), horizon, lengths)
    })
}

/// The small texts, with a horizon of the chain, one less and one more. Half of
/// the calls lend what the damaged text asks for, if it can be read; the others
/// what the text asked for before, and two pairs more.
fn of_small(random: &mut Random, text: &[u8]) -> Vec<Call> {
    let whole = needs(Patterson, text).expect("the text is a good one");
    let chain = whole.chain.unwrap_or(1);
    let mut before = whole.lengths;
    before[4] += 2;
    before[5] += 2;
    let mut calls = Vec::new();
    for damaged in damaged(Random::new(random.long()), &DAMAGES, text.to_vec()) {
        let asked = needs(Patterson, &damaged).map_or(before, |needs| needs.lengths);
        for horizon in [chain.saturating_sub(1), chain, chain + 1] {
            let lengths = random.pick(&[before, asked]);
            let resource = random.between(0, whole.resources.saturating_sub(1));
            calls.push(call(Patterson, &damaged, resource, horizon, lengths));
        }
    }
    calls
}

pub fn small(seed: u64) -> impl Iterator<Item = Call> {
    let mut random = Random::new(seed);
    let texts = SMALL.into_iter();
    texts.flat_map(move |text| of_small(&mut random, text.as_bytes()))
}
