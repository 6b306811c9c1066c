//! PSPLIB texts: the numbers of its sections, refusals 30, 31 and 32 as the text
//! meets them, and the order of all refusals of the call, a case for each rule.

use crate::answers::Answer;
use crate::project::{Project, ProjectJob};
use crate::psplib::project;
use crate::reading::{read, Layout, Lent, Request};

/// Two jobs on two resources, the first before the second.
pub const GOOD: &str = "\
any text
jobs (incl. supersource/sink ):  2
horizon : 9
  - renewable                 :  2   R
  - nonrenewable              :  7   N
PRECEDENCE RELATIONS:
jobnr.    #modes  #successors   successors
   1        1          1           2
   2        1          0
****
REQUESTS/DURATIONS:
jobnr. mode duration  R 1  R 2
------------------------------
  1      1     3       1    2
  2      1     4       0    1
****
RESOURCEAVAILABILITIES:
  R 1  R 2
    5    6
****
";

pub fn refusal(text: impl AsRef<[u8]>) -> Option<u32> {
    project(text.as_ref()).err()
}

/// The good text with one part of it changed.
pub fn with(from: &str, to: &str) -> String {
    assert_eq!(GOOD.matches(from).count(), 1, "{from}");
    GOOD.replace(from, to)
}

pub fn good() -> Result<Project, u32> {
    let job = |duration: u32, demands: [u32; 2], successors: Vec<usize>| ProjectJob {
        duration,
        demands: demands.to_vec(),
        successors,
    };
    Ok(Project {
        caps: vec![5, 6],
        jobs: vec![job(3, [1, 2], vec![1]), job(4, [0, 1], vec![])],
    })
}

/// What stands around each number of the text, the number after the tilde, and
/// what one that is too great is refused with; 30 where it can only be itself.
const NUMBERS: [(&str, &str, u32); 16] = [
    ("sink ):  ~", "2", 31),
    ("- renewable                 :  ~", "2", 31),
    ("successors\n   ~", "1", 30),
    ("successors\n   1        ~", "1", 30),
    ("successors\n   1        1          ~", "1", 31),
    ("1          1           ~", "2", 32),
    ("2\n   ~", "2", 30),
    ("2\n   2        ~", "1", 30),
    ("2        1          ~", "0", 31),
    ("----\n  ~", "1", 30),
    ("----\n  1      ~", "1", 30),
    ("----\n  1      1     ~", "3", 31),
    ("3       ~", "1", 31),
    ("4       0    ~", "1", 31),
    ("R 1  R 2\n    ~", "5", 31),
    ("R 1  R 2\n    5    ~", "6", 31),
];

/// The good text with another number in one of these places.
fn numbered(around: &str, number: &str, other: &str) -> String {
    let from = around.replace('~', number);
    with(&from, &around.replace('~', other))
}

#[test]
fn a_good_text_is_read() {
    assert_eq!(project(GOOD.as_bytes()), good());
    assert_eq!(project(GOOD.trim_end().as_bytes()), good());
    assert_eq!(project(GOOD.replace('\n', "\r\n").as_bytes()), good());
    let parted = with("  1      1     3       1    2\n", "1\t1\r3\n\n1 2 ");
    assert_eq!(project(parted.as_bytes()), good());
    let ends = with("    5    6\n****\n", "\n5\n6");
    assert_eq!(project(ends.as_bytes()), good());
}

#[test]
fn other_text_is_passed_over() {
    for (from, to) in [
        ("****\nREQ", "3 1 x\n\u{ff}\n REQ"),
        ("6\n****\n", "6 7 x\n:\0"),
        ("any text\n", ""),
        ("2   R", "2   -1"),
        ("jobnr.    #modes", "\0 257"),
        ("------------------------------", ""),
        ("REQUESTS/DURATIONS:", "REQUESTS/DURATIONS: 1 1 1"),
        ("PRECEDENCE RELATIONS:", "PRECEDENCE RELATIONS:2 1 x"),
    ] {
        assert_eq!(project(with(from, to).as_bytes()), good(), "{from}");
    }
}

#[test]
fn what_is_no_number_is_30_in_every_place() {
    for (around, number, _) in NUMBERS {
        for other in ["x", "300x", "-1", "+1", "1.0", "1:", "9999999999x"] {
            let text = numbered(around, number, other);
            assert_eq!(refusal(&text), Some(30), "{around} {other}");
        }
        let zeros = numbered(around, number, &format!("{}{number}", "0".repeat(70)));
        assert_eq!(project(zeros.as_bytes()), good());
    }
}

#[test]
fn no_number_wraps() {
    for (around, number, refused) in NUMBERS {
        let value: u128 = number.parse().unwrap();
        for power in [32, 64, 65] {
            let great = (value + (1 << power)).to_string();
            let text = numbered(around, number, &great);
            assert_eq!(refusal(&text), Some(refused), "{around} {great}");
        }
    }
}

#[test]
fn job_numbers_mode_counts_and_modes_can_only_be_themselves() {
    for (around, number, _) in NUMBERS.iter().filter(|place| place.2 == 30) {
        for other in ["0", "1", "2", "3", "256", "257", "10001", "1000001"] {
            let text = numbered(around, number, other);
            let refused = (other != *number).then_some(30);
            assert_eq!(refusal(&text), refused, "{around} {other}");
        }
    }
}

#[test]
fn numbers_at_their_limit_are_read_and_one_more_is_31() {
    for (around, number, most) in [
        ("----\n  1      1     ~", "3", 1_000_000),
        ("4       0    ~", "1", 10_000),
        ("R 1  R 2\n    5    ~", "6", 10_000),
    ] {
        let at = numbered(around, number, &most.to_string());
        let above = numbered(around, number, &(most + 1).to_string());
        assert_eq!((refusal(&at), refusal(&above)), (None, Some(31)));
    }
    let count = |count: &str| numbered(NUMBERS[4].0, "1", count);
    assert_eq!(refusal(count("2")), Some(30));
    assert_eq!(refusal(count("3")), Some(31));
    for (successor, refused) in [("0", Some(32)), ("1", None), ("3", Some(32))] {
        assert_eq!(refusal(numbered(NUMBERS[5].0, "2", successor)), refused);
    }
}

/// Each fault with all that come behind it.
#[test]
fn sections_are_met_in_the_order_of_the_headings() {
    let faults = [
        ("sink ):  2", "sink ):  257", 31),
        ("                 :  2   R", "                 :  2R", 30),
        ("           2\n", "           3\n", 32),
        ("     3       1", "     1000001       1", 31),
        ("    5    6", "    5", 30),
    ];
    for first in 0..faults.len() {
        let text = faults[first..]
            .iter()
            .fold(GOOD.to_string(), |text, fault| {
                text.replacen(fault.0, fault.1, 1)
            });
        assert_eq!(refusal(&text), Some(faults[first].2));
        let request = |resource, horizon| Request {
            layout: Layout::Psplib,
            resource,
            horizon,
            text: text.clone().into_bytes(),
        };
        let said = |request| read(&request, &mut Lent::default());
        assert_eq!(said(request(9, 0)), Answer::Refused(faults[first].2));
        assert_eq!(said(request(9, 1_000_001)), Answer::Refused(31));
    }
}
