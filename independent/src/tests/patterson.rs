//! Patterson texts: what a number is, what parts numbers, and refusals 30, 31
//! and 32 as the text meets them, one case for each rule.

use crate::patterson::project;
use crate::project::{Project, ProjectJob};

/// Two jobs on two resources, the first before the second.
const GOOD: &str = "2 2\n5 6\n3 1 2 1 2\n4 0 1 0\n";

fn refusal(text: impl AsRef<[u8]>) -> Option<u32> {
    project(text.as_ref()).err()
}

fn job(duration: u32, demands: &[u32], successors: &[usize]) -> ProjectJob {
    ProjectJob {
        duration,
        demands: demands.to_vec(),
        successors: successors.to_vec(),
    }
}

fn good() -> Result<Project, u32> {
    Ok(Project {
        caps: vec![5, 6],
        jobs: vec![job(3, &[1, 2], &[1]), job(4, &[0, 1], &[])],
    })
}

/// The good text with another word at a place.
fn with(place: usize, word: &[u8]) -> Vec<u8> {
    let mut words: Vec<&[u8]> = GOOD.split_whitespace().map(str::as_bytes).collect();
    words[place] = word;
    words.join(&b' ')
}

#[test]
fn numbers_are_parted_by_any_blanks() {
    assert_eq!(project(GOOD.as_bytes()), good());
    let words: Vec<&str> = GOOD.split_whitespace().collect();
    for blanks in [" ", "\t", "\r", "\n", "\r\n", " \t\r\n "] {
        let text = words.join(blanks);
        assert_eq!(project(text.as_bytes()), good());
        let within = format!("{blanks}{text}{blanks}");
        assert_eq!(project(within.as_bytes()), good());
    }
}

#[test]
fn a_number_is_a_whole_token_of_digits() {
    let words: [&[u8]; 13] = [
        b"+1",
        b"-1",
        b"1.0",
        b"1,",
        b"0x1",
        b"1e0",
        b"x1",
        b"1x",
        b"1\x00",
        b"\x0c1",
        b"1\x0b",
        b"\xc2\xa01",
        b"\xd9\xa1",
    ];
    for place in 0..GOOD.split_whitespace().count() {
        for word in words {
            assert_eq!(refusal(with(place, word)), Some(30), "{place} {word:?}");
        }
    }
    let with_mark = [b"\xef\xbb\xbf", GOOD.as_bytes()].concat();
    assert_eq!(refusal(with_mark), Some(30));
}

#[test]
fn what_is_no_number_passes_no_limit() {
    for word in ["300x", "99999999999999999999999x", "4294967296-"] {
        for place in 0..GOOD.split_whitespace().count() {
            assert_eq!(refusal(with(place, word.as_bytes())), Some(30));
        }
    }
}

#[test]
fn zeros_before_a_number_change_nothing() {
    for (place, word) in GOOD.split_whitespace().enumerate() {
        for zeros in [1, 2, 20, 1_000] {
            let word = format!("{}{word}", "0".repeat(zeros));
            assert_eq!(project(&with(place, word.as_bytes())), good());
        }
    }
}

#[test]
fn no_number_wraps() {
    for (place, word) in GOOD.split_whitespace().enumerate() {
        let value: u128 = word.parse().unwrap();
        let refused = if place == 8 { 32 } else { 31 };
        for power in [32, 64, 65] {
            let great = (value + (1 << power)).to_string();
            assert_eq!(refusal(with(place, great.as_bytes())), Some(refused));
        }
        let long = format!("1{}{word}", "0".repeat(60));
        assert_eq!(refusal(with(place, long.as_bytes())), Some(refused));
    }
}

#[test]
fn text_too_short_or_left_over_is_30() {
    let words: Vec<&str> = GOOD.split_whitespace().collect();
    for count in 0..words.len() {
        assert_eq!(refusal(words[..count].join(" ")), Some(30));
    }
    for empty in ["", " ", "\n", " \t\r\n"] {
        assert_eq!(refusal(empty), Some(30));
    }
    for more in ["0", "x", ".", "\0", "\u{1a}", "\u{c}"] {
        assert_eq!(refusal(format!("{GOOD}{more}")), Some(30), "{more:?}");
        assert_eq!(refusal(format!("{GOOD}\n {more} ")), Some(30));
    }
}

#[test]
fn numbers_at_their_limit_are_read_and_one_more_is_31() {
    let jobs = |count: usize| format!("{count} 0{}", " 0 0".repeat(count));
    let resources = |count: usize| format!("0 {count}{}", " 1".repeat(count));
    assert_eq!(refusal(jobs(256)), None);
    assert_eq!(refusal(jobs(257)), Some(31));
    assert_eq!(refusal(resources(8)), None);
    assert_eq!(refusal(resources(9)), Some(31));
    for (places, most, more) in [
        (vec![2, 3], "10000", "10001"),
        (vec![4, 9], "1000000", "1000001"),
        (vec![5, 6, 10, 11], "10000", "10001"),
    ] {
        for place in places {
            assert_eq!(refusal(with(place, most.as_bytes())), None, "{place}");
            assert_eq!(refusal(with(place, more.as_bytes())), Some(31));
        }
    }
}

#[test]
fn as_many_successors_as_jobs_are_read_and_one_more_is_31_at_the_count() {
    assert_eq!(refusal("2 1 5 0 0 2 2 2 0 0 0"), None);
    assert_eq!(refusal("2 1 5 0 0 3 2 2 2 0 0 0"), Some(31));
    assert_eq!(refusal("2 1 5 0 0 3 0 9 x"), Some(31));
    assert_eq!(refusal("1 1 5 0 0 2"), Some(31));
}

#[test]
fn a_successor_is_from_1_to_the_job_count() {
    for (successor, refused) in [
        ("0", Some(32)),
        ("1", None),
        ("2", None),
        ("3", Some(32)),
        ("256", Some(32)),
        ("000", Some(32)),
        ("002", None),
    ] {
        assert_eq!(refusal(with(8, successor.as_bytes())), refused);
    }
}

#[test]
fn the_first_fault_of_a_text_decides() {
    for (text, refused) in [
        ("257", 31),
        ("257 x", 31),
        ("x 257", 30),
        ("1 9", 31),
        ("1 x 5 1000001", 30),
        ("1 1 10001 x", 31),
        ("1 1 x 1000001", 30),
        ("1 1 5 1000001", 31),
        ("2 1 5 0 0 1 3", 32),
        ("2 1 5 0 0 1 3 x", 32),
        ("2 1 5 0 0 1 3 1000001 0 0", 32),
        ("2 1 5 0 0 1 2 1000001 0 0", 31),
        ("2 1 5 0 10001 1 3", 31),
        ("2 1 5 0 0 1 x 1000001", 30),
        ("1 1 5 0 0 1 2 0", 32),
    ] {
        assert_eq!(refusal(text), Some(refused), "{text}");
    }
}

#[test]
fn no_jobs_is_a_good_text() {
    let caps = |caps: &[u32]| {
        Ok(Project {
            caps: caps.to_vec(),
            jobs: Vec::new(),
        })
    };
    assert_eq!(project(b"0 1 7"), caps(&[7]));
    assert_eq!(project(b"0 0"), caps(&[]));
    assert_eq!(refusal("0 1"), Some(30));
}
