//! Calls for texts whose headings, counts and sections are written in every way
//! that is a good one or nearly so.

use crate::lines::Call;
use crate::psplib::HEADINGS;
use crate::random::Random;
use crate::reading::Layout::Psplib;
use crate::texts::psplib::damaged::{near, SMALL};
use crate::texts::psplib::forms::{BEFORE, BEHIND, CHANGES, COUNT, LINES, RENEWABLE};
use crate::texts::whole::needs;

fn with(text: &str, from: &str, to: &str) -> String {
    assert!(text.contains(from), "{from:?}");
    text.replace(from, to)
}

/// Each heading with something before and behind it, in two lines, twice on a
/// line, in letters of the other size, and in the place of each other one.
fn of_headings(text: &str) -> Vec<String> {
    let mut texts = Vec::new();
    for heading in HEADINGS {
        let line = text
            .lines()
            .find(|line| line.trim_start().starts_with(heading));
        let line = line.expect("the text has every heading");
        let bare = line.trim_start();
        let behind = &bare[heading.len()..];
        for before in BEFORE {
            let changed = with(text, &format!("\n{line}\n"), &format!("\n{before}{bare}\n"));
            texts.push(changed);
        }
        for more in BEHIND {
            texts.push(with(text, bare, &format!("{heading}{more}{behind}")));
        }
        let (start, end) = heading.split_at(heading.len() / 2);
        for other in [
            format!("{start}\n{end}"),
            format!("{start}\r{end}"),
            format!("{start} {end}"),
            format!("{heading}{heading}"),
            format!("{heading} {heading}"),
            format!("{heading}\n{heading}"),
            heading.to_uppercase(),
            heading.to_lowercase(),
        ] {
            texts.push(with(text, bare, &format!("{other}{behind}")));
        }
        for other in HEADINGS {
            let swapped = with(text, heading, "~").replace(other, heading);
            texts.push(swapped.replace('~', other));
        }
    }
    texts
}

fn of_lines(text: &str) -> Vec<String> {
    let lines: Vec<&str> = text.split('\n').collect();
    let mut texts = Vec::new();
    for more in LINES {
        for place in 0..=lines.len() {
            let mut with = lines.clone();
            with.insert(place, more);
            texts.push(with.join("\n"));
        }
    }
    texts
}

fn texts() -> Vec<String> {
    let text = SMALL[0];
    let mut texts = [of_headings(text), of_lines(text)].concat();
    for (heading, old, others) in [
        (0, "  2\n", &COUNT[..]),
        (1, "      :  1   R\n", &RENEWABLE),
    ] {
        let heading = HEADINGS[heading];
        let from = format!("{heading}{old}");
        let changed = others.iter();
        texts.extend(changed.map(|new| with(text, &from, &format!("{heading}{new}\n"))));
    }
    texts.extend(CHANGES.map(|(from, to)| with(text, from, to)));
    texts
}

pub fn calls() -> Vec<Call> {
    let whole = needs(Psplib, SMALL[0].as_bytes()).expect("the text is a good one");
    let mut random = Random::new(5);
    let texts = texts();
    let calls = texts.iter();
    calls
        .map(|text| near(&mut random, &whole, text.as_bytes()))
        .collect()
}
