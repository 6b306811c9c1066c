//! The lines of the calls `psplib` and `write`.

use super::psplib::GOOD;
use crate::lines::{answer, read, Call};

fn said(line: &str) -> String {
    answer(line.as_bytes())
}

/// A list of the bytes.
fn bytes(text: &str) -> String {
    let bytes: Vec<String> = text.bytes().map(|byte| byte.to_string()).collect();
    format!("{} {}", bytes.len(), bytes.join(" "))
}

#[test]
fn the_psplib_call_has_its_line() {
    let text = bytes(GOOD);
    let lists = "2 9 9 2 9 9 2 9 9 2 9 9 1 8 2 8 8";
    let read = said(&format!("psplib 1 9 {lists} {text}"));
    assert_eq!(read, "read 6 1 2 0 3 2 5 9 2 3 4 2 2 1 1 0 2 1 8");
    for (start, number) in [("1 6", 34), ("2 9", 37), ("0 1000001", 31)] {
        let refused = said(&format!("psplib {start} {lists} {text}"));
        assert_eq!(refused, format!("refused {number} {lists}"));
    }
    assert_eq!(said("psplib 0 0 0 0 0 0 0 0 0"), "refused 35 0 0 0 0 0 0");
    let patterson = format!("patterson 1 9 {lists} {text}");
    assert_eq!(said(&patterson), format!("refused 30 {lists}"));
}

#[test]
fn the_write_call_has_its_line() {
    let line = "write 5 2 3 4 2 1 2 1 0 1 1 21 7 7 7 7 7 7 7 7 7 7 7 7 7 7 7 7 7 7 7 7 9";
    let text = bytes("2 1\n5\n3 1 1 2\n4 2 0\n");
    let (_, text) = text.split_once(' ').unwrap();
    assert_eq!(said(line), format!("written 20 21 {text} 9"));
    assert_eq!(
        said("write 5 0 0 0 0 5 1 2 3 4 5"),
        "refused 36 5 1 2 3 4 5"
    );
    assert_eq!(said("write 5 1 0 0 0 0 2 1 2"), "refused 1 2 1 2");
    assert_eq!(said("write 5 0 0 1 0 0 2 1 2"), "refused 1 2 1 2");
    assert_eq!(said("write 4294967295 0 0 0 0 0"), "refused 3 0");
}

#[test]
fn lines_with_anything_else_are_unreadable() {
    for line in [
        "psplib",
        "psplib 0 0 0 0 0 0 0 0",
        "psplib 0 0 0 0 0 0 0 0 1 256",
        "psplib 0 0 0 0 0 0 0 0 0 0",
        "psplib 4294967296 0 0 0 0 0 0 0 0",
        "PSPLIB 0 0 0 0 0 0 0 0 0",
        "write",
        "write 5 0 0 0 0",
        "write 5 0 0 0 0 1",
        "write 5 0 0 0 0 1 256",
        "write 5 0 0 0 0 0 0",
        "write 4294967296 0 0 0 0 0",
        "write 5 1 4294967296 0 0 0 0",
        "write 5 0 0 0 0 0 ",
        "Write 5 0 0 0 0 0",
    ] {
        assert_eq!(said(line), "unreadable", "{line}");
    }
}

#[test]
fn lists_of_a_writing_may_be_as_long_as_the_line_allows() {
    let zeros = |length: usize| format!("{length}{}", " 0".repeat(length));
    let first = |line: String| said(&line).split(' ').take(2).collect::<Vec<_>>().join(" ");
    let jobs = |dur, dem| first(format!("write 0 {} {} 0 0 0", zeros(dur), zeros(dem)));
    assert_eq!(jobs(1_200, 1_200), "refused 2");
    assert_eq!(
        (jobs(1_201, 0).as_str(), jobs(0, 1_201).as_str()),
        ("unreadable", "unreadable")
    );
    let pairs = |from, to| first(format!("write 0 0 0 {} {} 0", zeros(from), zeros(to)));
    assert_eq!(pairs(70_000, 70_000), "refused 32");
    assert_eq!(
        (pairs(70_001, 0).as_str(), pairs(0, 70_001).as_str()),
        ("unreadable", "unreadable")
    );
    let buffer = |length| first(format!("write 0 0 0 0 0 {}", zeros(length)));
    assert_eq!(buffer(524_288), "written 6");
    assert_eq!(buffer(524_289), "unreadable");
}

#[test]
fn a_call_is_read_from_its_own_line() {
    for line in [
        "psplib 1 2 1 3 0 1 4 2 5 6 1 7 0 3 48 0 255",
        "write 1 2 3 4 1 5 2 6 7 1 8 2 0 255",
    ] {
        let call = read(line.as_bytes());
        assert_eq!(call.as_ref().map(Call::line), Some(line.to_string()));
    }
}
