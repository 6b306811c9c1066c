//! Calls for PSPLIB texts damaged at each byte in turn, and at each line:
//! removed, doubled, swapped with each other line, moved to an end.

use crate::lines::Call;
use crate::random::Random;
use crate::reading::Layout::Psplib;
use crate::texts::damaged::{damaged, Damage};
use crate::texts::lent::call;
use crate::texts::whole::{needs, Needs};

const DAMAGES: [Damage; 8] = [
    |_, text, place| {
        text.remove(place);
    },
    |_, text, place| text.insert(place, text[place]),
    |_, text, place| text[place] = b' ',
    |random, text, place| text[place] = random.pick(b"\t\r\n\n"),
    |random, text, place| text[place] = random.pick(b"xeEoOlaZR"),
    |random, text, place| text[place] = random.pick(b"0123456789"),
    |random, text, place| text[place] = random.pick(b":-*./()"),
    |random, text, place| text[place] = random.pick(b"\x00\x0b\x0c\xa0\xff"),
];

/// The published text is damaged at so many places, and not at each.
const PLACES: usize = 80;

/// Small texts: one with other text between the sections, one with none, one
/// with CR LF ends, one with a cycle, and two with no jobs.
pub const SMALL: [&str; 6] = [
    "*\nfile : x\njobs (incl. supersource/sink ):  2\nhorizon : 7\n  - renewable      :  1   R\n  \
     - nonrenewable   :  0   N\n*\nPRECEDENCE RELATIONS:\njobnr. #modes\n  1  1  1   2\n  2  1  0\n\
     *\nREQUESTS/DURATIONS:\njobnr. mode  R 1\n------\n  1  1  3  2\n  2  1  4  1\n*\n\
     RESOURCEAVAILABILITIES:\n  R 1\n   5\n*\n",
    "jobs (incl. supersource/sink ):3\n- renewable:2\nPRECEDENCE RELATIONS:\n\n1 1 2 2 3\n2 1 1 3\n\
     3 1 0\nREQUESTS/DURATIONS:\n\n\n1 1 10 0 2\n2 1 3 10 1\n3 1 0 1 1\nRESOURCEAVAILABILITIES:\n\n\
     12 6",
    "jobs (incl. supersource/sink ): 1\r\n- renewable : 1 R\r\nPRECEDENCE RELATIONS:\r\nj\r\n1 1 0\r\n\
     REQUESTS/DURATIONS:\r\nj\r\n-\r\n1 1 4 3\r\nRESOURCEAVAILABILITIES:\r\nR\r\n7\r\n",
    "jobs (incl. supersource/sink ): 2\n- renewable : 1\nPRECEDENCE RELATIONS:\nj\n1 1 1 2\n2 1 1 1\n\
     REQUESTS/DURATIONS:\nj\n-\n1 1 0 3\n2 1 0 3\nRESOURCEAVAILABILITIES:\nR\n7\n",
    "jobs (incl. supersource/sink ): 0\n- renewable : 1\nPRECEDENCE RELATIONS:\nREQUESTS/DURATIONS:\n\
     RESOURCEAVAILABILITIES:\nR\n7",
    "jobs (incl. supersource/sink ):0\n- renewable:0\nPRECEDENCE RELATIONS:\nREQUESTS/DURATIONS:\n\
     RESOURCEAVAILABILITIES:",
];

/// A call that lends what the damaged text asks for, if it can be read, or what
/// the whole one did and two pairs more; the horizon is about the chain.
pub fn near(random: &mut Random, whole: &Needs, text: &[u8]) -> Call {
    let chain = whole.chain.unwrap_or(1);
    let mut before = whole.lengths;
    before[4] += 2;
    before[5] += 2;
    let asked = needs(Psplib, text).map_or(before, |needs| needs.lengths);
    let lengths = random.pick(&[before, asked, asked]);
    let horizon = random.pick(&[chain, chain, chain + 1, chain.saturating_sub(1)]);
    let resource = random.between(0, whole.resources.saturating_sub(1));
    call(Psplib, text, resource, horizon, lengths)
}

fn text_of(lines: &[&[u8]]) -> Vec<u8> {
    lines.join(&b'\n')
}

fn lines_of(text: &[u8]) -> Vec<&[u8]> {
    text.split(|&byte| byte == b'\n').collect()
}

/// Each line removed, doubled, and moved to the end.
fn each_line(text: &[u8]) -> Vec<Vec<u8>> {
    let lines = lines_of(text);
    let mut texts = Vec::new();
    for (place, &line) in lines.iter().enumerate() {
        let mut without = lines.clone();
        without.remove(place);
        texts.push(text_of(&without));
        texts.push(text_of(&[&without[..], &[line]].concat()));
        let mut doubled = lines.clone();
        doubled.insert(place, line);
        texts.push(text_of(&doubled));
    }
    texts
}

/// Each line moved to the front, and an empty one put before each.
fn each_line_further(text: &[u8]) -> Vec<Vec<u8>> {
    let lines = lines_of(text);
    let mut texts = Vec::new();
    for place in 0..lines.len() {
        let mut first = lines.clone();
        first[..=place].rotate_right(1);
        texts.push(text_of(&first));
        let mut parted = lines.clone();
        parted.insert(place, b"");
        texts.push(text_of(&parted));
    }
    texts
}

/// Each two lines swapped that are at most `apart`.
fn swapped(text: &[u8], apart: usize) -> Vec<Vec<u8>> {
    let lines = lines_of(text);
    let mut texts = Vec::new();
    for place in 0..lines.len() {
        for other in place + 1..lines.len().min(place + 1 + apart) {
            let mut changed = lines.clone();
            changed.swap(place, other);
            texts.push(text_of(&changed));
        }
    }
    texts
}

fn of_small(random: &mut Random, text: &[u8]) -> Vec<Call> {
    let whole = needs(Psplib, text).expect("the text is a good one");
    let bytes = damaged(Random::new(random.long()), &DAMAGES, text.to_vec());
    let texts = bytes
        .chain(each_line(text))
        .chain(each_line_further(text))
        .chain(swapped(text, text.len()));
    let texts: Vec<Vec<u8>> = texts.collect();
    let calls = texts.iter();
    calls.map(|text| near(random, &whole, text)).collect()
}

pub fn small(seed: u64) -> impl Iterator<Item = Call> {
    let mut random = Random::new(seed);
    let texts = SMALL.into_iter();
    texts.flat_map(move |text| of_small(&mut random, text.as_bytes()))
}

/// The published text, at some of its bytes and at each of its lines.
pub fn published(text: &[u8], whole: &Needs, seed: u64) -> Vec<Call> {
    let mut random = Random::new(seed);
    let mut texts = [each_line(text), swapped(text, 1)].concat();
    for _ in 0..PLACES {
        let mut spoilt = text.to_vec();
        let place = random.below(text.len());
        random.pick(&DAMAGES)(&mut random, &mut spoilt, place);
        texts.push(spoilt);
    }
    let calls = texts.iter();
    calls.map(|text| near(&mut random, whole, text)).collect()
}
