//! PSPLIB texts: what a heading is, refusal 35, the counts on the headings'
//! lines, and sections that the text's end cuts off.

use super::psplib::{good, refusal, with, GOOD};
use crate::answers::Answer;
use crate::project::Project;
use crate::psplib::{project, HEADINGS};
use crate::reading::{read, Layout, Lent, Request};

/// No jobs and no other line than the headings.
fn bare(resources: usize) -> String {
    format!(
        "{} 0\n{}: {resources}\n{}\n{}\n{}\n",
        HEADINGS[0], HEADINGS[1], HEADINGS[2], HEADINGS[3], HEADINGS[4]
    )
}

#[test]
fn a_heading_stands_after_nothing_but_spaces() {
    for heading in HEADINGS {
        let line = GOOD.lines().find(|line| line.contains(heading)).unwrap();
        let line = format!("\n{line}\n");
        let rest = line.trim_start();
        for before in ["", " ", "          "] {
            let text = with(&line, &format!("\n{before}{rest}"));
            assert_eq!(project(text.as_bytes()), good(), "{heading}");
        }
        for before in ["\t", " \t", "\r", "x", "x ", "\0", "\u{feff}"] {
            let text = with(&line, &format!("\n{before}{rest}"));
            assert_eq!(refusal(text), Some(35), "{heading}");
        }
    }
}

#[test]
fn a_heading_is_its_exact_bytes() {
    for heading in HEADINGS {
        for place in 0..heading.len() {
            let mut other = heading.to_string();
            other.remove(place);
            assert_eq!(refusal(with(heading, &other)), Some(35), "{other}");
        }
        let small = heading.to_lowercase();
        let small = if small == heading {
            heading.to_uppercase()
        } else {
            small
        };
        assert_eq!(refusal(with(heading, &small)), Some(35));
    }
    let more = with("- renewable    ", "- renewables   ");
    assert_eq!(project(more.as_bytes()), good());
}

#[test]
fn a_heading_missing_twice_or_out_of_order_is_35() {
    let text = bare(0);
    let lines: Vec<&str> = text.lines().collect();
    assert_eq!(refusal(lines.join("\n")), None);
    for place in 0..lines.len() {
        let mut missing = lines.clone();
        let line = missing.remove(place);
        assert_eq!(refusal(missing.join("\n")), Some(35));
        for to in 0..lines.len() {
            let mut moved = missing.clone();
            moved.insert(to, line);
            let refused = (to != place).then_some(35);
            assert_eq!(refusal(moved.join("\n")), refused);
            let mut twice = lines.clone();
            twice.insert(to, line);
            assert_eq!(refusal(twice.join("\n")), Some(35));
        }
    }
    for text in ["", "\n", "2 1 5 0 0 0 0 0 0", "PRECEDENCE RELATIONS:"] {
        assert_eq!(refusal(text), Some(35));
    }
    let within = with("any text", "x PRECEDENCE RELATIONS:");
    assert_eq!(project(within.as_bytes()), good());
}

#[test]
fn headings_come_before_every_number_and_after_the_horizon() {
    let text = with("RESOURCEAVAILABILITIES:", "").replace("):  2", "):  x");
    assert_eq!(refusal(&text), Some(35));
    for (horizon, refused) in [(1_000_000, 35), (1_000_001, 31)] {
        let request = Request {
            layout: Layout::Psplib,
            resource: 9,
            horizon,
            text: text.clone().into_bytes(),
        };
        let answer = read(&request, &mut Lent::default());
        assert_eq!(answer, Answer::Refused(refused));
    }
}

#[test]
fn a_count_is_the_first_token_after_the_first_colon_of_its_line() {
    for (line, refused) in [
        ("- renewable : 2 R", None),
        ("- renewable:2", None),
        ("- renewable :\t2\r", None),
        ("- renewable x 9 : 2 : 3", None),
        ("- renewable : 2R", Some(30)),
        ("- renewable : 2:", Some(30)),
        ("- renewable :: 2", Some(30)),
        ("- renewable : R 2", Some(30)),
        ("- renewable : ", Some(30)),
        ("- renewable :\n2", Some(30)),
        ("- renewable 2", Some(30)),
        ("- renewable : 8", Some(30)),
        ("- renewable : 9", Some(31)),
    ] {
        let text = with("- renewable                 :  2   R", line);
        assert_eq!(refusal(text), refused, "{line}");
    }
    for (line, refused) in [
        ("sink ):2", None),
        ("sink ): 2 jobs", None),
        ("sink ):\r 2\r", None),
        ("sink ):", Some(30)),
        ("sink ):\n2", Some(30)),
        ("sink ): : 2", Some(30)),
        ("sink ): 256", Some(30)),
        ("sink ): 257", Some(31)),
    ] {
        assert_eq!(refusal(with("sink ):  2", line)), refused, "{line}");
    }
}

#[test]
fn lines_behind_a_heading_are_passed_over_whatever_they_are() {
    let names = with("jobnr. mode duration  R 1  R 2\n", "1 1 9 9 9\n");
    assert_eq!(project(names.as_bytes()), good());
    let missing = with("jobnr. mode duration  R 1  R 2\n", "");
    assert_eq!(refusal(missing), Some(30));
    let no_hyphens = with("------------------------------\n", "");
    assert_eq!(refusal(no_hyphens), Some(30));
    let one_more = with("  R 1  R 2\n    5", "\n  R 1  R 2\n    5");
    assert_eq!(refusal(one_more), Some(30));
    let blank = with("    5    6\n", "\n \r\n\t5\n\n\n6\n");
    assert_eq!(project(blank.as_bytes()), good());
}

#[test]
fn a_section_that_the_text_ends_before_has_no_rows() {
    let none = |caps: &[u32]| {
        let caps = caps.to_vec();
        let jobs = Vec::new();
        Ok(Project { caps, jobs })
    };
    assert_eq!(project(bare(0).as_bytes()), none(&[]));
    assert_eq!(project(bare(0).trim_end().as_bytes()), none(&[]));
    assert_eq!(refusal(bare(1)), Some(30));
    assert_eq!(refusal(bare(1) + "7"), Some(30));
    assert_eq!(refusal(bare(1) + "R 1\n"), Some(30));
    assert_eq!(project((bare(1) + "R 1\n7").as_bytes()), none(&[7]));
    assert_eq!(refusal(bare(0).replace("): 0", "): 1")), Some(30));
}
