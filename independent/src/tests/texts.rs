//! That the calls of the readers and the writer reach every answer often, and
//! that each answer leaves the words that it should.

use super::layouts::published;
use crate::lines::{answer, read, Call};
use crate::reading::Lent;
use crate::texts::{self, PUBLISHED};
use std::collections::BTreeMap;

const SEED: u64 = 1;
const COUNT: u64 = 3_000;

fn lines(seed: u64, count: u64) -> impl Iterator<Item = Vec<u8>> {
    let [rcp, sm] = PUBLISHED.map(published);
    texts::lines([rcp.as_bytes(), sm.as_bytes()], seed, count).unwrap()
}

/// The call, the word of the answer and its refusal.
fn kind(line: &[u8]) -> String {
    let answer = answer(line);
    let mut words = answer.split(' ');
    let call = match read(line) {
        Some(Call::Read(request, _)) => request.layout.name(),
        Some(Call::Write(..)) => "write",
        _ => "other",
    };
    match (words.next(), words.next()) {
        (Some("refused"), Some(number)) => format!("{call} {number}"),
        (Some(word), _) => format!("{call} {word}"),
        _ => String::new(),
    }
}

fn counts(lines: impl Iterator<Item = Vec<u8>>) -> BTreeMap<String, usize> {
    let mut counts = BTreeMap::new();
    for line in lines {
        *counts.entry(kind(&line)).or_default() += 1;
    }
    counts
}

/// The least number of each answer in the lines before the drawn ones and in
/// the drawn ones.
const OFTEN: [(&str, usize, usize); 24] = [
    ("patterson read", 3_000, 700),
    ("patterson 30", 3_000, 300),
    ("patterson 31", 400, 300),
    ("patterson 32", 1_000, 100),
    ("patterson 33", 150, 80),
    ("patterson 34", 500, 150),
    ("patterson 37", 50, 150),
    ("patterson 38", 80, 100),
    ("psplib read", 1_000, 200),
    ("psplib 30", 1_500, 60),
    ("psplib 31", 150, 80),
    ("psplib 32", 70, 20),
    ("psplib 33", 100, 20),
    ("psplib 34", 400, 30),
    ("psplib 35", 3_000, 100),
    ("psplib 37", 40, 50),
    ("psplib 38", 30, 30),
    ("write written", 150, 150),
    ("write 1", 150, 20),
    ("write 2", 80, 4),
    ("write 3", 40, 15),
    ("write 32", 120, 30),
    ("write 33", 400, 30),
    ("write 36", 100, 50),
];

#[test]
fn every_answer_comes_up_often() {
    let fixed = counts(lines(SEED, 0));
    let all = counts(lines(SEED, COUNT));
    for (kind, in_fixed, in_drawn) in OFTEN {
        assert!(fixed[kind] >= in_fixed, "{kind} {}", fixed[kind]);
        let drawn = all[kind] - fixed[kind];
        assert!(drawn >= in_drawn, "{kind} {drawn}");
    }
    let known = |kind: &String| OFTEN.iter().any(|often| often.0 == kind);
    assert!(all
        .keys()
        .all(|kind| kind.starts_with("other") || known(kind)));
    assert_eq!(fixed["other unreadable"], 16);
    assert!(all["other unreadable"] >= 50);
}

#[test]
fn the_same_seed_makes_the_same_lines() {
    let drawn = |seed| {
        let all = lines(seed, 60);
        let mut last: Vec<Vec<u8>> = all.collect();
        last.split_off(last.len() - 30)
    };
    assert_eq!(drawn(SEED), drawn(SEED));
    assert_ne!(drawn(SEED), drawn(SEED + 1));
}

#[test]
fn no_line_holds_a_line_feed() {
    assert!(lines(SEED, COUNT).all(|line| !line.contains(&b'\n')));
}

/// The lists that an answer ends with, as they are written.
fn written(lent: &Lent) -> String {
    let list = |list: &Vec<u32>| {
        let numbers: Vec<String> = list.iter().map(u32::to_string).collect();
        [vec![list.len().to_string()], numbers].concat().join(" ")
    };
    lent.lists().map(list).join(" ")
}

#[test]
fn a_refusal_leaves_every_word_and_no_answer_writes_beyond_the_pairs() {
    for line in lines(SEED, COUNT) {
        let Some(Call::Read(_, lent)) = read(&line) else {
            continue;
        };
        let answer = answer(&line);
        let mut words = answer.splitn(4, ' ');
        if words.next() == Some("refused") {
            let (_, lists) = answer.split_once("refused ").unwrap();
            let (_, lists) = lists.split_once(' ').unwrap();
            assert_eq!(lists, written(&lent));
        } else {
            let pairs: usize = words.nth(1).unwrap().parse().unwrap();
            let unused = &lent.successors[pairs..];
            let unused: Vec<String> = unused.iter().map(u32::to_string).collect();
            assert!(answer.ends_with(&unused.join(" ")));
            let next = lent.jobs.get(pairs);
            assert!(next.is_none_or(|mark| answer.contains(&format!(" {mark} "))));
        }
    }
}

#[test]
fn what_the_writer_leaves_is_the_buffer_behind_the_text() {
    for line in lines(SEED, COUNT) {
        let Some(Call::Write(listing, buffer)) = read(&line) else {
            continue;
        };
        let text = listing.text().ok();
        let text = text.filter(|text| text.len() <= buffer.len());
        let said = text.as_ref().map(|text| format!("written {} ", text.len()));
        let text = text.unwrap_or_default();
        let whole = [&text, &buffer[text.len()..]].concat();
        let numbers: Vec<String> = whole.iter().map(u8::to_string).collect();
        let list = [vec![whole.len().to_string()], numbers].concat().join(" ");
        let answer = answer(&line);
        assert!(answer.ends_with(&format!(" {list}")));
        assert!(answer.starts_with(&said.unwrap_or("refused ".to_string())));
    }
}
