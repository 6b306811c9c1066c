//! What a readable line is, and that lines are answered one by one.

use crate::lines::{answer, answer_all, read, Call};

fn said(line: &str) -> String {
    answer(line.as_bytes())
}

#[test]
fn each_call_has_its_line() {
    let log = " 9".repeat(24);
    let narrow = format!("narrow 5 3 2 2 2 3 10 7 8 3 3 3 4 3 2 2 2 24{log}");
    let narrowed = "settled 1 3 5 2 2 3 10 7 8 24 0 0 4 2 6 0 0 0 0 0 0 0";
    assert_eq!(said(&narrow), format!("{narrowed}{}", &log[..24]));
    let check = "check 5 1 3 2 2 2 3 10 7 8 3 3 3 4 3 2 2 2 12 0 0 4 2 6 0 0 0 0 0 0 0";
    assert_eq!(said(check), "holds 1 3 5 2 2 3 10 7 8");
    let record = "record 0 13 0 0 4 2 6 0 0 0 0 0 0 0 1";
    assert_eq!(said(record), "record 12 0 0 4 2 6 0 0 0 0 0 0 0");
    assert_eq!(said("record 1 13 0 0 4 2 6 0 0 0 0 0 0 0 1"), "record 0");
    assert_eq!(said("overload 3 0 0 0 3 4 4 4 3 2 2 2"), "overload 0 4");
    assert_eq!(said("overload 2 0 0 2 4 4 2 2 2"), "none");
}

#[test]
fn the_patterson_call_has_its_line() {
    let line = "patterson 0 4 1 7 1 7 1 7 1 7 1 8 2 9 9 11 49 32 49 32 53 10 51 32 50 32 48";
    assert_eq!(said(line), "read 5 0 1 0 1 4 1 3 1 2 1 8 2 9 9");
    let late = line.replace("patterson 0 4", "patterson 0 2");
    assert_eq!(said(&late), "refused 34 1 7 1 7 1 7 1 7 1 8 2 9 9");
    let none = "patterson 4294967295 4294967295 0 0 0 0 0 0 0";
    assert_eq!(said(none), "refused 31 0 0 0 0 0 0");
    let odd = "patterson 0 4 0 0 0 0 0 0 2 0 255";
    assert_eq!(said(odd), "refused 30 0 0 0 0 0 0");
    for line in [
        "patterson 0 4 0 0 0 0 0 0 2 0 256",
        "patterson 0 4 0 0 0 0 0 0 2 0",
        "patterson 0 4 0 0 0 0 0 0 1 0 0",
        "patterson 0 4 0 0 0 0 0 0",
        "patterson 0 4294967296 0 0 0 0 0 0 0",
        "patterson 4294967296 4 0 0 0 0 0 0 0",
        "patterson 0 4 0 0 0 0 0 1 4294967296 0",
        "Patterson 0 4 0 0 0 0 0 0 0",
    ] {
        assert_eq!(said(line), "unreadable", "{line}");
    }
}

#[test]
fn refusals_and_codes_have_their_lines() {
    assert_eq!(said("narrow 0 1 1 0 0 0 2 7 7"), "refused 1 1 1 0 2 7 7");
    assert_eq!(
        said("narrow 0 1 1 1 3 1 1 1 1 12 7 7 7 7 7 7 7 7 7 7 7 7"),
        "refused 5 1 1 1 3 12 0 0 0 0 0 0 0 0 0 0 0 0"
    );
    assert_eq!(said("check 0 1 0 0 0 0 0"), "refused 6 0 0");
    assert_eq!(
        said("narrow 0 1 1 1 3 1 1 1 1 2 7 7"),
        "refused 7 1 1 1 3 2 7 7"
    );
    assert_eq!(said("check 0 1 0 0 0 0 2 7 7"), "refused 7 0 0");
    let bad = "check 1 1 1 0 1 2 1 1 1 2 12 0 7 0 0 0 0 0 0 0 0 0 0";
    assert_eq!(said(bad), "rejected 0 21 1 0 1 2");
    let short = "check 1 1 1 3 1 6 1 4 1 1 12 0 0 0 0 0 0 0 0 0 0 0 0";
    assert_eq!(said(short), "rejected 0 20 1 3 1 6");
    assert_eq!(said("overload 1 5 1 5 0"), "refused 1");
}

#[test]
fn windows_that_are_too_short_have_their_lines() {
    let narrow = "narrow 1 1 3 1 6 1 4 1 1 12 7 7 7 7 7 7 7 7 7 7 7 7";
    let left = "clash 0 0 1 3 1 6 12 7 7 7 7 7 7 7 7 7 7 7 7";
    assert_eq!(said(narrow), left);
    assert_eq!(said("check 1 0 1 3 1 6 1 4 1 1 0"), "clash 0 0 1 3 1 6");
    assert_eq!(said("overload 1 5 1 5 1 1"), "overload 5 5");
    assert_eq!(said("overload 1 5 1 3 1 0"), "overload 5 3");
}

#[test]
fn numbers_may_be_as_great_as_their_kind_and_have_zeros_before_them() {
    assert_eq!(said("record 18446744073709551615 0"), "record 0");
    assert_eq!(said("record 18446744073709551616 0"), "unreadable");
    assert_eq!(said("narrow 4294967295 0 0 0 0 0"), "refused 3 0 0 0");
    assert_eq!(said("narrow 4294967296 0 0 0 0 0"), "unreadable");
    let zeros = "0".repeat(1_000);
    assert_eq!(said(&format!("overload {zeros} 0 00")), "none");
    assert_eq!(
        said(&format!("record {zeros}18446744073709551615 0")),
        "record 0"
    );
    assert_eq!(said(&format!("record 1{zeros} 0")), "unreadable");
    assert_eq!(said("check 0 18446744073709551616 0 0 0 0 0"), "unreadable");
}

#[test]
fn anything_else_is_unreadable() {
    for line in [
        "",
        " ",
        "narrow",
        "Narrow 0 0 0 0 0 0",
        " narrow 0 0 0 0 0 0",
        "narrow 0 0 0 0 0 0 ",
        "narrow  0 0 0 0 0 0",
        "narrow 0 0 0 0 0",
        "narrow 0 0 0 0 0 0 0",
        "narrow 0 0 0 0 0 1",
        "narrow 0 0 0 0 0 1 4294967296",
        "narrow\t0 0 0 0 0 0",
        "narrow 0 0 0 0 0 0\r",
        "overload 0 0 -0",
        "overload 0 0 +0",
        "overload 0 0 0x0",
        "overload 0 0 0\u{0}",
        "overload 0 0 \u{0660}",
        "record 0",
        "show 0 0",
    ] {
        assert_eq!(said(line), "unreadable", "{line:?}");
    }
    assert_eq!(answer(b"overload 0 0 0\xff"), "unreadable");
}

#[test]
fn lists_may_be_as_long_as_the_line_allows() {
    let zeros = |length: usize| format!(" {length}{}", " 0".repeat(length));
    let jobs = |length: usize| {
        said(&format!(
            "overload{}{}{}",
            zeros(length),
            zeros(1_200),
            zeros(0)
        ))
    };
    assert_eq!(jobs(1_200), "refused 1");
    assert_eq!(jobs(1_201), "unreadable");
    let shown = |length: usize| said(&format!("record 10921{}", zeros(length)));
    assert_eq!(shown(131_072), format!("record 12{}", " 0".repeat(12)));
    assert_eq!(shown(131_073), "unreadable");
    assert_eq!(shown(131_063), "record 0");
}

#[test]
fn pair_lists_and_texts_may_be_as_long_as_the_line_allows() {
    let zeros = |length: usize| format!(" {length}{}", " 0".repeat(length));
    let pairs = |from: usize, to: usize| {
        let lists = format!("patterson 0 0 0 0 0 0{}{} 0", zeros(from), zeros(to));
        said(&lists).split(' ').next().map(str::to_string)
    };
    assert_eq!(pairs(70_000, 70_000).as_deref(), Some("refused"));
    assert_eq!(pairs(70_001, 0).as_deref(), Some("unreadable"));
    assert_eq!(pairs(0, 70_001).as_deref(), Some("unreadable"));
    let text = |length: usize| said(&format!("patterson 0 0 0 0 0 0 0 0{}", zeros(length)));
    assert_eq!(text(524_288), "refused 30 0 0 0 0 0 0");
    assert_eq!(text(524_289), "unreadable");
}

#[test]
fn a_call_is_read_from_its_own_line() {
    for line in [
        "narrow 1 1 2 2 3 4 3 5 6 7 0 1 9",
        "check 1 2 1 2 2 3 4 3 5 6 7 0 1 9",
        "record 7 2 8 9",
        "overload 1 2 0 3 1 2 3",
        "patterson 1 2 1 3 0 1 4 2 5 6 1 7 0 3 48 0 255",
    ] {
        assert_eq!(
            read(line.as_bytes()).as_ref().map(Call::line),
            Some(line.to_string())
        );
    }
}

#[test]
fn every_line_is_answered() {
    let answered = |input: &str| {
        let mut output = Vec::new();
        answer_all(input.as_bytes(), &mut output).unwrap();
        String::from_utf8(output).unwrap()
    };
    assert_eq!(answered(""), "");
    assert_eq!(answered("\n"), "unreadable\n");
    assert_eq!(answered("overload 0 0 0"), "none\n");
    assert_eq!(answered("overload 0 0 0\n"), "none\n");
    assert_eq!(
        answered("x\n\nrecord 0 0\r\nrecord 0 0"),
        "unreadable\nunreadable\nunreadable\nrecord 0\n"
    );
}
