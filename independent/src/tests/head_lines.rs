//! The line of the read head: how it is answered, and when it can be read.

use crate::lines::{answer, read, Call, LONGEST_JOB_LIST};

fn said(line: &str) -> String {
    answer(line.as_bytes())
}

#[test]
fn the_answer_is_followed_by_the_windows() {
    for (asked, answered) in [
        ("head 0 0 0", "settled 0 0 0"),
        ("head 2 0 0 2 2 9 2 2 3", "settled 1 2 0 2 2 2 9"),
        ("head 2 0 1 2 2 3 2 2 2", "clash 1 0 2 0 1 2 2 3"),
        ("head 1 3 1 6 1 4", "clash 0 0 1 3 1 6"),
        ("head 1 5 2 7 8 0", "refused 1 1 5 2 7 8"),
        ("head 0 0 1 4294967295", "refused 1 0 0"),
        ("head 1 5 1 9 1 4294967295", "refused 3 1 5 1 9"),
        ("head 001 0005 1 09 1 00", "settled 0 1 5 1 9"),
    ] {
        assert_eq!(said(asked), answered, "{asked}");
    }
}

#[test]
fn a_call_is_read_from_its_own_line() {
    let line = "head 1 2 0 3 1 2 3";
    let call = read(line.as_bytes());
    assert!(matches!(call, Some(Call::Head(_))));
    assert_eq!(call.as_ref().map(Call::line).as_deref(), Some(line));
}

#[test]
fn other_lines_are_unreadable() {
    for line in [
        "head",
        "head 0 0",
        "head 0 0 0 0",
        "head 0 0 0 ",
        "head 0  0 0",
        " head 0 0 0",
        "Head 0 0 0",
        "heads 0 0 0",
        "head\t0 0 0",
        "head 0 0 0\r",
        "head 1 0 0",
        "head 0 0 1 4294967296",
        "head 0 0 -0",
        "head 1 0 0 1 1 1",
    ] {
        assert_eq!(said(line), "unreadable", "{line:?}");
    }
}

#[test]
fn lists_may_be_as_long_as_the_line_allows() {
    let zeros = |length: usize| format!("{length}{}", " 0".repeat(length));
    let most = zeros(LONGEST_JOB_LIST);
    let longer = zeros(LONGEST_JOB_LIST + 1);
    let all = format!("head {most} {most} {most}");
    assert_eq!(said(&all), format!("refused 2 {most} {most}"));
    for lists in [
        format!("{longer} {most} {most}"),
        format!("{most} {longer} {most}"),
        format!("{most} {most} {longer}"),
    ] {
        assert_eq!(said(&format!("head {lists}")), "unreadable");
    }
}
