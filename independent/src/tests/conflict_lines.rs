//! The line that asks for marks: how it is answered, and when it can be read.

use crate::lines::{answer, read, Call};

const LISTS: &str = "3 3 0 0 3 4 5 2 3 1 3 2 3 1 1 1";
const LOG: &str = "24 1 0 1 1 4 0 0 0 0 0 0 0 0 0 3 1 2 0 0 0 0 0 0 0";

fn said(line: &str) -> String {
    answer(line.as_bytes())
}

#[test]
fn the_answer_is_followed_by_the_set() {
    let asked = |count: &str| said(&format!("conflict 1 {count} {LISTS} {LOG}"));
    assert_eq!(asked("2"), "marked 3 8 7 0 0 0 0 0 0 0");
    assert_eq!(asked("0002"), "marked 3 8 7 0 0 0 0 0 0 0");
    assert_eq!(asked("1"), "refused 8 8 0 0 0 0 0 0 0 0");
    assert_eq!(asked("0"), "refused 8 8 0 0 0 0 0 0 0 0");
    assert_eq!(asked("3"), "refused 6 8 0 0 0 0 0 0 0 0");
    let most = "18446744073709551615";
    assert_eq!(asked(most), "refused 6 8 0 0 0 0 0 0 0 0");
    assert_eq!(asked("18446744073709551616"), "unreadable");
    let short = "conflict 1 0 2 0 3 2 1 6 2 1 4 2 1 1 0";
    assert_eq!(said(short), "marked 1 8 2 0 0 0 0 0 0 0");
    let uneven = "conflict 1 0 1 3 0 1 4 1 1 2 7 7";
    assert_eq!(said(uneven), "refused 1 8 0 0 0 0 0 0 0 0");
    let ragged = "conflict 1 0 0 0 0 0 2 7 7";
    assert_eq!(said(ragged), "refused 7 8 0 0 0 0 0 0 0 0");
}

#[test]
fn a_call_is_read_from_its_own_line() {
    let line = format!("conflict 1 2 {LISTS} {LOG}");
    let call = read(line.as_bytes());
    assert!(matches!(call, Some(Call::Conflict(..))));
    assert_eq!(call.as_ref().map(Call::line), Some(line));
}

#[test]
fn other_lines_are_unreadable() {
    let all = format!("conflict 1 2 {LISTS} {LOG}");
    for line in [
        "conflict".to_string(),
        format!("Conflict 1 2 {LISTS} {LOG}"),
        format!("conflicts 1 2 {LISTS} {LOG}"),
        "conflict 1 0 0 0 0 0".to_string(),
        format!("conflict 1 2 {LISTS}"),
        format!("conflict 4294967296 2 {LISTS} {LOG}"),
        format!("conflict 1 -2 {LISTS} {LOG}"),
        format!("conflict  1 2 {LISTS} {LOG}"),
        format!("{all} 8 0 0 0 0 0 0 0 0"),
        format!("{all} "),
        format!("{all}\r"),
        all[..all.len() - 2].to_string(),
    ] {
        assert_eq!(said(&line), "unreadable", "{line}");
    }
}

#[test]
fn lists_may_be_as_long_as_the_line_allows() {
    let zeros = |length: usize| format!("{length}{}", " 0".repeat(length));
    let jobs = |length: usize| said(&format!("conflict 0 0 {} 0 0 0 0", zeros(length)));
    assert_eq!(jobs(1_200), "refused 1 8 0 0 0 0 0 0 0 0");
    assert_eq!(jobs(1_201), "unreadable");
    let log = |length: usize| said(&format!("conflict 0 10923 0 0 0 0 {}", zeros(length)));
    assert_eq!(log(131_064), "refused 6 8 0 0 0 0 0 0 0 0");
    assert_eq!(log(131_072), "refused 7 8 0 0 0 0 0 0 0 0");
    assert_eq!(log(131_073), "unreadable");
}
